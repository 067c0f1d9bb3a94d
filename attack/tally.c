/* tally.c: counts calls by their replies. */
#include "tally.h"

#include <inttypes.h>
#include <stdio.h>
#include <stdlib.h>
#include <time.h>

#include "calls.h"

enum { NUMBERS = 19 };

static uint64_t replies[CALLS][NUMBERS], helper_replies[NUMBERS], made;

void count_call(int call, uint64_t number) {
    replies[call][number]++;
    made++;
}

void count_helper(uint64_t number) { helper_replies[number]++; }

static double now(clockid_t clock) {
    struct timespec t;
    clock_gettime(clock, &t);
    return (double)t.tv_sec + 1e-9 * (double)t.tv_nsec;
}

static double limit(const char *name) {
    const char *text = getenv(name);
    return text == NULL ? 0 : strtod(text, NULL);
}

/* The seconds since this was first asked. */
static double passed(void) {
    static double begun;
    if (begun == 0)
        begun = now(CLOCK_MONOTONIC);
    return now(CLOCK_MONOTONIC) - begun;
}

bool enough(void) {
    static double calls_wanted = -1, seconds_wanted;
    if (calls_wanted < 0) {
        calls_wanted = limit("ATTACK_CALLS");
        seconds_wanted = limit("ATTACK_SECONDS");
    }
    double seconds = passed();
    return (double)made >= calls_wanted && seconds >= seconds_wanted;
}

/* Prints the replies of one call, and answers how many they were. */
static uint64_t print_row(const char *name, const uint64_t *row) {
    uint64_t sum = 0;
    printf("%-27s ok:%" PRIu64, name, row[0]);
    for (int i = 0; i < NUMBERS; i++) {
        sum += row[i];
        if (i > 0 && row[i] > 0)
            printf(" %d:%" PRIu64, i, row[i]);
    }
    printf("\n");
    return sum;
}

void print_tally(void) {
    uint64_t answers = 0;
    for (int i = 0; i < CALLS; i++) {
        print_row(calls[i].name, replies[i]);
        answers += replies[i][0];
    }
    uint64_t helpers = print_row("helpers", helper_replies);
    printf("attack: %" PRIu64 " calls on stores, %" PRIu64 " answers and %" PRIu64 " refusals, and %" PRIu64
           " of helpers, in %.0f seconds, %.0f of them on the processor; nothing found\n",
           made, answers, made - answers, helpers, passed(), now(CLOCK_PROCESS_CPUTIME_ID));
    fflush(stdout);
}
