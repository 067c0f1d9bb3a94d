/* input.h: the bytes that an attack is drawn from, and the numbers of calls, drawn close to document 01's bounds. */
#ifndef INPUT_H
#define INPUT_H

#include <stdbool.h>
#include <stddef.h>
#include <stdint.h>

typedef struct {
    const uint8_t *at;
    const uint8_t *end;
} input;

/* Is no byte left? */
bool spent(const input *in);
/* The next byte; 0 where none is left. */
uint8_t next_byte(input *in);
/* The next byte, modulo n. */
size_t next_below(input *in, size_t n);
/* The next eight bytes as a number. */
uint64_t next_number(input *in);

/* Draws the numbers of a call by the letters of its kinds: r root, c root of a child, v virtual address, p physical
 * address, s size, n number of pages, m permissions, f freeing, w any number. */
void draw_numbers(input *in, const char *kinds, uint64_t *numbers);
/* Draws a length of the kernel's buffer, at most MAX_BUFFER. */
size_t draw_length(input *in);

#endif
