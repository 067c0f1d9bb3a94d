/* finding.h: what is printed when the attack finds something. */
#ifndef FINDING_H
#define FINDING_H

#include <stddef.h>
#include <stdint.h>

/* The input that is run, from its begin on. */
void begin_input(const uint8_t *data, size_t size);
/* The call that is made next, and its numbers. */
void begin_call(const char *name, const uint64_t *numbers, size_t count);
/* What the call replied. */
void end_call(uint64_t number, uint64_t value);
/* Prints what is wrong, the call, its numbers, the slices and the input, writes the input to the file `finding`, and
 * aborts. */
_Noreturn void found(const char *what);
/* From here on a touch of memory that was not lent is a finding too, and so is every other signal of a fault. */
void watch_signals(void);

#endif
