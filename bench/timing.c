/* timing.c: times the calls on one store. They take turns, and the best of many turns counts, so that what else runs on
 * the machine tells as little as it can. */
#include "timing.h"

#include <time.h>

#define TURNS 50     /* turns of each call in one visit, at least */
#define VISIT 300e6  /* nanoseconds of one visit, at least */
#define SAMPLE 200e3 /* nanoseconds of one turn, at least */

static check *const calls[CALLS] = {[OURS] = ronakvesh_check, [C] = check_c, [RUST] = check_rust, [ONCE] = once};

/* Takes every answer, so that none is left out. */
static volatile uint64_t taken;

double now(void) {
    struct timespec t;
    clock_gettime(CLOCK_MONOTONIC, &t);
    return 1e9 * (double)t.tv_sec + (double)t.tv_nsec;
}

/* The time of this many calls in a row. */
static double turn(check *call, const store *s, size_t repeats) {
    double start = now();
    for (size_t i = 0; i < repeats; i++) {
        taken = ask(call, s).value;
        __asm__ volatile("" ::: "memory");
    }
    return now() - start;
}

/* How many calls in a row take long enough, also where nothing disturbs them. */
static size_t repeats_of(check *call, const store *s) {
    size_t repeats = 1;
    for (int passed = 0; passed < 3; passed++)
        while (turn(call, s, repeats) < SAMPLE) {
            repeats *= 2;
            passed = 0;
        }
    return repeats;
}

times no_times(void) {
    times t;
    for (size_t i = 0; i < CALLS; i++)
        t.best[i] = 1e18;
    return t;
}

void time_calls(times *t, const store *s) {
    size_t repeats[CALLS];
    for (size_t i = 0; i < CALLS; i++)
        repeats[i] = repeats_of(calls[i], s);
    double start = now();
    for (size_t n = 0; n < TURNS || now() - start < VISIT; n++)
        for (size_t k = 0; k < CALLS; k++) {
            size_t i = (n + k) % CALLS;
            double time = turn(calls[i], s, repeats[i]) / (double)repeats[i];
            if (time < t->best[i])
                t->best[i] = time;
        }
}
