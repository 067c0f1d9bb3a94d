/* store.c: makes the stores that are timed, the same in every run. */
#include "store.h"

#include <stdio.h>
#include <stdlib.h>
#include <string.h>
#include <sys/mman.h>

#define USER_PAGE 31          /* V R W X U */
#define FOREIGN 0x80000       /* a frame number below the held window, and so are the next 2^19 */
#define CHUNK 64              /* words that have one pool frame among them in a spread store */
#define LEVEL_0 (2 * ENTRIES) /* the first word of the level-0 tables */

uint64_t next_random(uint64_t *seed) {
    *seed ^= *seed << 13;
    *seed ^= *seed >> 7;
    *seed ^= *seed << 17;
    return *seed;
}

uint64_t pointer_to(uint64_t t) { return 0x40000001 + 1024 * t; }

uint64_t leaf(uint64_t frame, uint64_t flags) { return frame << 10 | flags; }

uint64_t pool_frame(uint64_t f) { return 0x110000 + f; }

void link_table(store *s, size_t w, size_t t) {
    s->words[w] = pointer_to(t);
    s->table_marks[t] = w + 2;
}

void map_pool(store *s, size_t w, size_t f) {
    s->words[w] = leaf(pool_frame(f), USER_PAGE);
    s->frame_marks[f] = w + 2;
}

static void map_foreign(store *s, size_t w) { s->words[w] = leaf(FOREIGN + w, USER_PAGE); }

static size_t words_of(const store *s) { return ENTRIES * s->ntables; }

static void fresh(store *s) { (void)s; }

/* Table 0 a root, table 1 of level 1, all others of level 0. */
static void tree(store *s) {
    s->table_marks[0] = 1;
    link_table(s, 0, 1);
    for (size_t t = 2; t < s->ntables; t++)
        link_table(s, ENTRIES + t - 2, t);
}

static void full_foreign(store *s) {
    tree(s);
    for (size_t w = LEVEL_0; w < words_of(s); w++)
        map_foreign(s, w);
}

static void full_pool(store *s) {
    full_foreign(s);
    for (size_t f = 0; f < s->nframes; f++)
        map_pool(s, LEVEL_0 + f, f);
}

/* Maps one pool frame in each chunk of the level-0 tables: the place in the chunk and the frame jump about. An odd step
 * meets no frame twice, since their number is a power of 2. */
static void spread_pool(store *s) {
    uint64_t seed = 4660;
    size_t f = 0, step = 5 * s->nframes / 8 + 1;
    for (size_t w = LEVEL_0; w < words_of(s); w += CHUNK) {
        map_pool(s, w + next_random(&seed) % CHUNK, f);
        f = (f + step) % s->nframes;
    }
}

static void spread(store *s) {
    full_foreign(s);
    spread_pool(s);
}

static void spread_sparse(store *s) {
    tree(s);
    spread_pool(s);
}

static void sparse(store *s) {
    uint64_t seed = 22136;
    tree(s);
    for (size_t w = LEVEL_0; w < words_of(s); w++)
        if (next_random(&seed) % 100 < 5)
            map_foreign(s, w);
}

static void corrupt(store *s) {
    full_foreign(s);
    s->words[words_of(s) - 1] |= (uint64_t)1 << 54;
}

static void corrupt_early(store *s) {
    full_foreign(s);
    s->words[LEVEL_0] |= (uint64_t)1 << 54;
}

const kind kinds[KINDS] = {
    [FRESH] = {"fresh", fresh, 1},
    [FULL_FOREIGN] = {"full-foreign", full_foreign, 1},
    [FULL_POOL] = {"full-pool", full_pool, 1},
    [SPREAD] = {"spread", spread, 1},
    [SPREAD_SPARSE] = {"spread-sparse", spread_sparse, 1},
    [SPARSE] = {"sparse", sparse, 1},
    [CORRUPT] = {"corrupt", corrupt, 0},
    [CORRUPT_EARLY] = {"corrupt-early", corrupt_early, 0},
};

/* Zeroed memory, in large pages where there are any, so that runs differ less in where it lies. */
static void *room(size_t size) {
    size_t large = (size_t)1 << 21, rounded = (size + large - 1) / large * large;
    void *place = aligned_alloc(large, rounded);
    if (place == NULL) {
        fputs("bench: no memory\n", stderr);
        exit(4);
    }
#ifdef MADV_HUGEPAGE
    (void)madvise(place, rounded, MADV_HUGEPAGE);
#endif
    return memset(place, 0, rounded);
}

store new_store(void) {
    store s = {0};
    s.words = room(8 * ENTRIES * (MAX_TABLES + 1));
    s.table_marks = room(4 * (MAX_TABLES + 1));
    s.bytes = room(FRAME_BYTES * (MAX_FRAMES + 1));
    s.frame_marks = room(4 * (MAX_FRAMES + 1));
    return s;
}

void build(store *s, const kind *k, size_t ntables) {
    s->ntables = ntables;
    s->nframes = 8 * ntables;
    memset(s->words, 0, 8 * words_of(s));
    memset(s->table_marks, 0, 4 * s->ntables);
    memset(s->frame_marks, 0, 4 * s->nframes);
    k->fill(s);
}

reply ask(check *call, const store *s) {
    return call(s->words, words_of(s), s->table_marks, s->ntables, s->bytes, FRAME_BYTES * s->nframes, s->frame_marks,
                s->nframes);
}
