/* main.c: compares the checks, then times them, or times what a judge asks of ranges. It prints a line for each store
 * or range, as oracle/src/times.rs does for each case: its parts apart by tabs, - for what there is not.
 * usage: bench checks|ranges */
#include <stdio.h>
#include <string.h>

#include "compare.h"
#include "ranges.h"
#include "timing.h"

#define VISITS 5 /* to each store, between visits to the others: a disturbed while spoils one visit, not a store */

/* A line of the figures. */
typedef struct {
    const kind *kind;
    size_t ntables;
    times times;
} line;

/* The lines: the growth of two kinds, then the other kinds at full size. */
enum { LINES = KINDS + 4 };

static void plan(line lines[LINES]) {
    size_t n = 0;
    for (size_t k = 0; k < KINDS; k++)
        for (size_t ntables = k <= FULL_FOREIGN ? 8 : MAX_TABLES; ntables <= MAX_TABLES; ntables *= 8)
            lines[n++] = (line){&kinds[k], ntables, no_times()};
}

static void compare(store *s) {
    compare_sizes(s, MAX_TABLES);
    compare_sizes(s, 8);
    compare_changed(s, 8, 4000);
    compare_changed(s, 64, 500);
    compare_changed(s, MAX_TABLES, 100);
}

/* Times the calls on the store of a line once the checks agree on it. */
static void visit(line *l, store *s) {
    build(s, l->kind, l->ntables);
    compare_known(s, l->kind);
    time_calls(&l->times, s);
}

static void print_line(const line *l) {
    static const char *const names[CALLS] = {[C] = "C", [RUST] = "Rust", [ONCE] = "reading once"};
    printf("check, %s\t%zu\t0\t%.2f\t-\t-", l->kind->name, l->ntables, l->times.best[OURS]);
    for (size_t i = C; i < CALLS; i++)
        printf("\t%s\t%.2f\t1", names[i], l->times.best[i]);
    printf("\n");
}

static void time_checks(store *s) {
    static line lines[LINES];
    compare(s);
    plan(lines);
    for (int v = 0; v < VISITS; v++)
        for (size_t n = 0; n < LINES; n++)
            visit(&lines[n], s);
    for (size_t n = 0; n < LINES; n++)
        print_line(&lines[n]);
}

int main(int argc, char **argv) {
    store s = new_store();
    if (argc == 2 && strcmp(argv[1], "checks") == 0)
        time_checks(&s);
    else if (argc == 2 && strcmp(argv[1], "ranges") == 0)
        time_ranges(&s);
    else
        return fputs("usage: bench checks|ranges\n", stderr), 2;
    return 0;
}
