/* sequence.h: one input of the attack. */
#ifndef SEQUENCE_H
#define SEQUENCE_H

#include <stddef.h>
#include <stdint.h>

/* Runs the sequence of calls that the bytes stand for. Any bytes are one. */
void run_sequence(const uint8_t *data, size_t size);

#endif
