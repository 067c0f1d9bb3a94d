/* change.c: random changes to a store, most of them close to what W1 to W5 tell apart. */
#include "change.h"

#include <stdbool.h>
#include <string.h>

static size_t below(uint64_t *seed, size_t n) { return next_random(seed) / 8 % n; }

/* A word's number: at an end of a table or of a root's used half, or in the first two tables, which are the root and
 * the level-1 table, or anywhere. */
static size_t some_word(const store *s, uint64_t *seed) {
    const size_t ends[] = {0, 255, 256, 511, 512, 1023, 1024, ENTRIES * s->ntables - 1};
    switch (below(seed, 4)) {
    case 0:
        return ends[below(seed, 8)];
    case 1:
        return below(seed, 2 * ENTRIES);
    default:
        return below(seed, ENTRIES * s->ntables);
    }
}

/* Does the mark name a word of the store? */
static bool names_word(const store *s, uint32_t mark) { return mark >= 2 && mark - 2 < ENTRIES * s->ntables; }

static size_t some_table(const store *s, uint64_t *seed) { return below(seed, s->ntables); }

static size_t some_frame(const store *s, uint64_t *seed) { return below(seed, s->nframes); }

static void word_cleared(store *s, uint64_t *seed) { s->words[some_word(s, seed)] = 0; }

static void bit_turned(store *s, uint64_t *seed) {
    size_t w = some_word(s, seed);
    s->words[w] ^= (uint64_t)1 << below(seed, 64);
}

static void word_copied(store *s, uint64_t *seed) {
    size_t w = some_word(s, seed), from = some_word(s, seed);
    s->words[w] = s->words[from];
}

/* A pointer to a table that may not be there, or may have another mark. */
static void pointer_written(store *s, uint64_t *seed) {
    size_t w = some_word(s, seed);
    s->words[w] = pointer_to(below(seed, s->ntables + 2));
}

/* A frame at an end of the held window, of its tables, of the pool or of all frames, or one beside it. */
static void frame_written(store *s, uint64_t *seed) {
    const uint64_t ends[] = {1, 0x100000, pool_frame(0), pool_frame(s->nframes), 0x120000, (uint64_t)1 << 44};
    size_t w = some_word(s, seed);
    uint64_t frame = ends[below(seed, 6)], flags = below(seed, 1024), valid = below(seed, 8) != 0;
    s->words[w] = leaf(frame - below(seed, 2), flags | valid);
}

/* 0, 1, the name of a word, the name of one beside the last word, or anything. */
static uint32_t some_mark(const store *s, uint64_t *seed) {
    switch (below(seed, 5)) {
    case 0:
        return 0;
    case 1:
        return 1;
    case 2:
        return some_word(s, seed) + 2;
    case 3:
        return ENTRIES * s->ntables + 1 + below(seed, 3);
    default:
        return next_random(seed);
    }
}

static void table_mark_written(store *s, uint64_t *seed) {
    size_t t = some_table(s, seed);
    s->table_marks[t] = some_mark(s, seed);
}

static void frame_mark_written(store *s, uint64_t *seed) {
    size_t f = some_frame(s, seed);
    s->frame_marks[f] = some_mark(s, seed);
}

static void marks_exchanged(store *s, uint64_t *seed) {
    uint32_t *marks = below(seed, 2) ? s->frame_marks : s->table_marks;
    size_t one = some_table(s, seed), other = some_table(s, seed);
    uint32_t kept = marks[one];
    marks[one] = marks[other];
    marks[other] = kept;
}

/* Word and mark agree, but the word may stand at a wrong level, or have been in use. */
static void table_linked(store *s, uint64_t *seed) {
    size_t w = some_word(s, seed), t = some_table(s, seed);
    link_table(s, w, t);
}

static void pool_mapped(store *s, uint64_t *seed) {
    size_t w = some_word(s, seed), f = some_frame(s, seed);
    map_pool(s, w, f);
}

/* A table gets another pointer and loses its old one. */
static void table_moved(store *s, uint64_t *seed) {
    size_t t = some_table(s, seed);
    if (names_word(s, s->table_marks[t]))
        s->words[s->table_marks[t] - 2] = 0;
    size_t w = some_word(s, seed);
    link_table(s, w, t);
}

/* A table is given back, or now and then made a root, with all zero words; what it named is left behind. */
static void table_freed(store *s, uint64_t *seed) {
    size_t t = some_table(s, seed);
    if (names_word(s, s->table_marks[t]))
        s->words[s->table_marks[t] - 2] = 0;
    s->table_marks[t] = below(seed, 8) == 0;
    memset(s->words + ENTRIES * t, 0, 8 * ENTRIES);
}

/* A frame is given back with its word. */
static void frame_freed(store *s, uint64_t *seed) {
    size_t f = some_frame(s, seed);
    if (names_word(s, s->frame_marks[f]))
        s->words[s->frame_marks[f] - 2] = 0;
    s->frame_marks[f] = 0;
}

void change(store *s, uint64_t *seed) {
    static void (*const changes[])(store *, uint64_t *) = {
        word_cleared,       bit_turned,         word_copied,     pointer_written, frame_written,
        table_mark_written, frame_mark_written, marks_exchanged, table_linked,    pool_mapped,
        table_moved,        table_freed,        frame_freed,
    };
    changes[below(seed, sizeof changes / sizeof *changes)](s, seed);
}
