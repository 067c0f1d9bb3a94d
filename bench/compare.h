/* compare.h: shows, before anything is timed, that the three checks answer the same. */
#ifndef COMPARE_H
#define COMPARE_H

#include "store.h"

/* Each of these ends the program with status 1 where two of the checks differ, or where they are wrong together. */

/* Compares them on this store, of a kind whose answer is known. */
void compare_known(const store *s, const kind *k);
/* Compares them on stores of every kind with ntables tables and wrong sizes. */
void compare_sizes(store *s, size_t ntables);
/* Compares them on count stores of every kind with ntables tables and a few random changes, and says what they were. */
void compare_changed(store *s, size_t ntables, size_t count);

#endif
