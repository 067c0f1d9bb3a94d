/* check.h: the calls that are timed. All have one form: they are lent the four slices of a store, each as a pointer and
 * its length. */
#ifndef CHECK_H
#define CHECK_H

#include <stddef.h>
#include <stdint.h>

/* A check answers number 1 where the sizes are wrong. Else it answers number 0, and value 1 where the store is well
 * formed, 0 where it is not. */
typedef struct {
    uint64_t number;
    uint64_t value;
} reply;

typedef reply check(const uint64_t *words, size_t nwords, const uint32_t *table_marks, size_t ntables,
                    const uint8_t *bytes, size_t nbytes, const uint32_t *frame_marks, size_t nframes);

check ronakvesh_check; /* ours, from libinterface.a */
check check_c;         /* the same in C, check.c */
check check_rust;      /* the same in Rust, check.rs */
check once;            /* no check: reads the words and the marks once, once.c */

#endif
