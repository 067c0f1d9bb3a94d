/* check.c: the check as plain C: one pass over the words, with the level of each table worked out once. */
#include "check.h"

#include <stdbool.h>

#define ENTRIES 512 /* words of a table */
#define MAX_TABLES 512
#define MAX_FRAMES 4096
#define FRAME_BYTES 4096
#define POINTER 0x40000001u  /* the word that points to table 0; the next table's is 1024 more */
#define HELD 0x100000u       /* the first frame number of the held window */
#define HELD_FRAMES 0x20000u /* frame numbers in it */
#define POOL 0x110000u       /* the number of pool frame 0 */
#define NO_LEVEL 3

#define unlikely(condition) __builtin_expect(condition, 0)

typedef struct {
    const uint64_t *words;
    const uint32_t *table_marks;
    const uint32_t *frame_marks;
    size_t ntables;
    size_t nframes;
    uint8_t level[MAX_TABLES];
} store;

/* The level of table t by the marks: 2 for a root, one less for each pointer on the way down to t. */
static int level_of(const store *s, size_t t) {
    for (int level = 2; level >= 0; level--) {
        uint32_t mark = s->table_marks[t];
        if (mark == 1)
            return level;
        if (mark == 0)
            return NO_LEVEL;
        t = (mark - 2) / ENTRIES;
        if (t >= s->ntables)
            return NO_LEVEL;
    }
    return NO_LEVEL;
}

/* W2, and the levels: a table with a level has a mark that names a word of the store. */
static bool tables_ok(store *s) {
    for (size_t t = 0; t < s->ntables; t++) {
        uint32_t mark = s->table_marks[t];
        s->level[t] = level_of(s, t);
        if (mark < 2)
            continue;
        if (s->level[t] == NO_LEVEL || s->words[mark - 2] != POINTER + 1024 * t)
            return false;
    }
    return true;
}

/* Are the n words zero? n is a multiple of 4; of four sums none waits for the one before it. */
static bool zeros(const uint64_t *words, size_t n) {
    uint64_t a = 0, b = 0, c = 0, d = 0;
    for (size_t i = 0; i < n; i += 4) {
        a |= words[i];
        b |= words[i + 1];
        c |= words[i + 2];
        d |= words[i + 3];
    }
    return (a | b | c | d) == 0;
}

/* W3 of the n words from number first on. */
static bool pointers_ok(const store *s, size_t first, size_t n) {
    for (size_t w = first; w < first + n; w++) {
        uint64_t word = s->words[w];
        if (word == 0)
            continue;
        uint64_t offset = word - POINTER;
        if (offset % 1024 != 0 || offset / 1024 >= s->ntables || s->table_marks[offset / 1024] != w + 2)
            return false;
    }
    return true;
}

/* Is this a pool frame whose mark names word w? */
static bool pool_ok(const store *s, uint64_t frame, size_t w) {
    return frame - POOL < s->nframes && s->frame_marks[frame - POOL] == w + 2;
}

/* W4 of the words of one table, from number first on. */
static bool leaves_ok(const store *s, size_t first) {
    for (size_t w = first; w < first + ENTRIES; w++) {
        uint64_t word = s->words[w], frame = word >> 10;
        if (word == 0)
            continue;
        if (unlikely((word & 1) == 0 || word >> 54 != 0))
            return false;
        if (unlikely(frame - HELD < HELD_FRAMES) && !pool_ok(s, frame, w))
            return false;
    }
    return true;
}

/* W1, W3 and W4 of the words of table t. */
static bool words_ok(const store *s, size_t t) {
    size_t first = ENTRIES * t;
    switch (s->level[t]) {
    case 0:
        return leaves_ok(s, first);
    case 1:
        return pointers_ok(s, first, ENTRIES);
    case 2:
        return pointers_ok(s, first, ENTRIES / 2) && zeros(s->words + first + ENTRIES / 2, ENTRIES / 2);
    default:
        return zeros(s->words + first, ENTRIES);
    }
}

/* W5. */
static bool frames_ok(const store *s) {
    for (size_t f = 0; f < s->nframes; f++) {
        uint32_t mark = s->frame_marks[f];
        if (mark == 0)
            continue;
        if (mark == 1 || mark - 2 >= ENTRIES * s->ntables)
            return false;
        if (s->level[(mark - 2) / ENTRIES] != 0 || s->words[mark - 2] >> 10 != POOL + f)
            return false;
    }
    return true;
}

static bool well_formed(store *s) {
    if (!tables_ok(s))
        return false;
    for (size_t t = 0; t < s->ntables; t++)
        if (!words_ok(s, t))
            return false;
    return frames_ok(s);
}

reply check_c(const uint64_t *words, size_t nwords, const uint32_t *table_marks, size_t ntables, const uint8_t *bytes,
              size_t nbytes, const uint32_t *frame_marks, size_t nframes) {
    (void)bytes;
    if (ntables < 1 || ntables > MAX_TABLES || nframes < 1 || nframes > MAX_FRAMES)
        return (reply){1, 0};
    if (nwords != ENTRIES * ntables || nbytes != FRAME_BYTES * nframes)
        return (reply){1, 0};
    store s = {.words = words, .table_marks = table_marks, .frame_marks = frame_marks};
    s.ntables = ntables;
    s.nframes = nframes;
    return (reply){0, well_formed(&s)};
}
