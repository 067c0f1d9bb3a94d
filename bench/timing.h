/* timing.h: times the calls on one store, against each other. */
#ifndef TIMING_H
#define TIMING_H

#include "store.h"

enum { OURS, C, RUST, ONCE, CALLS };

/* The best time of each call on a store, in nanoseconds. */
typedef struct {
    double best[CALLS];
} times;

/* The nanoseconds that a clock shows. */
double now(void);
/* Before anything is timed. */
times no_times(void);
/* Times the calls on the store for a while, and keeps the best of this and of what t has. */
void time_calls(times *t, const store *s);

#endif
