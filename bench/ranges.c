/* ranges.c: times what a judge asks of a range of pages, whether one is mapped and how many tables are missing, beside
 * the check of the same store. */
#include "ranges.h"

#include <stdio.h>
#include <stdlib.h>

#include "timing.h"

/* From libtimed.a: the tables that pages first up to end of a root lack; 0 where one of them is mapped. */
uint64_t ronakvesh_timed_range(const uint64_t *words, size_t nwords, size_t root, size_t first, size_t end);

/* Pages of root 0 from 0 on, and the tables that they lack in a store whose only table is that root. */
typedef struct {
    size_t pages;
    uint64_t missing;
} range;

static const range ranges[] = {{1, 2}, {512, 2}, {262144, 513}, {67108864, 131328}};

enum { ROUNDS = 2000 };

static void must(int right, const char *what) {
    if (right)
        return;
    fprintf(stderr, "bench: ranges: %s\n", what);
    exit(1);
}

static void time_range(const store *s, const range *r) {
    double best = 1e18, check = 1e18;
    for (int n = 0; n < ROUNDS; n++) {
        double begun = now();
        uint64_t missing = ronakvesh_timed_range(s->words, ENTRIES * s->ntables, 0, 0, r->pages);
        double asked = now();
        uint64_t answer = ask(ronakvesh_check, s).value;
        double done = now();
        must(missing == r->missing, "wrong number of missing tables");
        must(answer == 1, "the store is not well formed");
        best = asked - begun < best ? asked - begun : best;
        check = done - asked < check ? done - asked : check;
    }
    printf("judge of a range\t%zu\t%zu\t-\t%.2f\t%.2f\n", s->ntables, r->pages, check, best);
}

void time_ranges(store *s) {
    build(s, &kinds[FRESH], MAX_TABLES);
    s->table_marks[0] = 1;
    for (size_t k = 0; k < sizeof ranges / sizeof *ranges; k++)
        time_range(s, &ranges[k]);
}
