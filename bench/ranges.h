/* ranges.h: what a judge asks of a range of pages, timed. */
#ifndef RANGES_H
#define RANGES_H

#include "store.h"

/* Times it over an empty root of a large store, and prints a line for each range. Ends the program with status 1 where
 * an answer is wrong. */
void time_ranges(store *s);

#endif
