/* store.h: the store that is attacked, and the kernel's buffer beside it. */
#ifndef STORE_H
#define STORE_H

#include "lent.h"

enum { ENTRIES = 512, PAGE_BYTES = 4096, MAX_TABLES = 512, MAX_FRAMES = 4096, MAX_BUFFER = 5 * PAGE_BYTES };
enum { WORDS, TABLE_MARKS, BYTES, FRAME_MARKS, STORE_SLICES, BUFFER = STORE_SLICES, SLICES };

/* The four slices of the store, and the buffer. */
extern lent slices[SLICES];

/* The slices of the store, as a call takes them. */
#define THE_WORDS ((uint64_t *)(void *)slices[WORDS].start)
#define THE_TABLE_MARKS ((uint32_t *)(void *)slices[TABLE_MARKS].start)
#define THE_BYTES (slices[BYTES].start)
#define THE_FRAME_MARKS ((uint32_t *)(void *)slices[FRAME_MARKS].start)
#define STORE                                                                                                          \
    THE_WORDS, slices[WORDS].count, THE_TABLE_MARKS, slices[TABLE_MARKS].count, THE_BYTES, slices[BYTES].count,        \
        THE_FRAME_MARKS, slices[FRAME_MARKS].count
#define THE_BUFFER slices[BUFFER].start, slices[BUFFER].count

/* Makes the rooms of the slices, once. */
void make_rooms(void);
/* Says where the next slices lie: bit i of the ends says whether slice i lies at the guard behind, and gap how many
 * elements, at most 7, lie between each slice and its guard. */
void place_slices(unsigned ends, size_t gap);
/* Lends a store of these sizes, painted with one byte. */
void lend_store(size_t tables, size_t frames, uint8_t byte);
/* Fills the four slices, or the first 65536 bytes of each, with bytes that look random, from a seed. */
void scramble(uint64_t seed);
/* Are the lengths of the four slices those of document 01? */
bool lengths_right(void);
/* Is this number that of a root? */
bool is_root(uint64_t number);
/* How many pages from 0 on are mapped in a root, up to 512; 0 where that cannot be said. */
uint64_t pages_mapped(uint64_t root);

/* Is the store well formed, by the plain C check of bench/? It is asked only where the lengths are right, and again
 * only after `forget`. */
bool well_formed(void);
/* The store is no longer the one that was last judged. */
void forget(void);

#endif
