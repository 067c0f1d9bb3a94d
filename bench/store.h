/* store.h: a store in memory, and the stores that are timed. */
#ifndef STORE_H
#define STORE_H

#include "check.h"

#define ENTRIES 512
#define FRAME_BYTES 4096
#define MAX_TABLES 512
#define MAX_FRAMES 4096

/* The slices have room for one table and one frame more than a store may have. */
typedef struct {
    uint64_t *words;
    uint32_t *table_marks;
    uint8_t *bytes;
    uint32_t *frame_marks;
    size_t ntables;
    size_t nframes;
} store;

/* One of the stores that are timed: its name, what makes it out of a store of zeros, and whether it is well formed. */
typedef struct {
    const char *name;
    void (*fill)(store *);
    uint64_t answer;
} kind;

enum { FRESH, FULL_FOREIGN, FULL_POOL, SPREAD, SPREAD_SPARSE, SPARSE, CORRUPT, CORRUPT_EARLY, KINDS };
extern const kind kinds[KINDS];

/* Room for a store of any size. Ends the program where there is none. */
store new_store(void);
/* Makes s the store of this kind, with ntables tables, a power of 2 from 8 on, and 8 frames for each. */
void build(store *s, const kind *k, size_t ntables);
/* What a call answers on the store. */
reply ask(check *call, const store *s);

/* A word that points to table t; one that maps a frame by its number, with these flags; the numbers of pool frames. */
uint64_t pointer_to(uint64_t t);
uint64_t leaf(uint64_t frame, uint64_t flags);
uint64_t pool_frame(uint64_t f);
/* Lets word w point to table t, and lets it map pool frame f: the word, and the mark that names it. */
void link_table(store *s, size_t w, size_t t);
void map_pool(store *s, size_t w, size_t f);

/* The next number of a fixed row that looks random; seed starts the row and is not 0. */
uint64_t next_random(uint64_t *seed);

#endif
