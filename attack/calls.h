/* calls.h: the calls on a store, with what document 01 says of each. */
#ifndef CALLS_H
#define CALLS_H

#include "ronakvesh.h"

enum {
    SET_UP,
    CHECK,
    PGT_TRANSLATE,
    AS_SATP,
    UVMCREATE,
    MAP,
    UVM_UNMAP,
    UVM_CLEAR,
    UVM_INIT,
    UVM_ALLOC,
    UVM_DEALLOC,
    COPY_IN,
    COPY_OUT,
    COPY_IN_STR,
    UVM_COPY,
    FREE,
    UVM_FREE,
    FREE_SHARED,
    PROC_FREE,
    CALLS
};

enum { MOST_NUMBERS = 5 };

typedef struct {
    const char *name;
    const char *kinds; /* its numbers, as draw_numbers reads them */
    uint32_t refusals; /* bit n: the call has refusal n */
    unsigned writes;   /* bit i: the call may write to slice i */
    bool lends;        /* is the kernel's buffer lent? */
    ronakvesh_reply (*make)(const uint64_t *numbers);
} call;

extern const call calls[CALLS];

#endif
