/* once.c: reads the words and the marks of a store once, and nothing else: the floor below every check. */
#include "check.h"

#define LANES 32 /* separate sums, so that no read waits for the one before it */

static uint64_t or_words(const uint64_t *words, size_t n) {
    uint64_t lane[LANES] = {0}, any = 0;
    size_t i = 0;
    for (; i + LANES <= n; i += LANES)
        for (size_t k = 0; k < LANES; k++)
            lane[k] |= words[i + k];
    for (; i < n; i++)
        any |= words[i];
    for (size_t k = 0; k < LANES; k++)
        any |= lane[k];
    return any;
}

static uint32_t or_marks(const uint32_t *marks, size_t n) {
    uint32_t any = 0;
    for (size_t i = 0; i < n; i++)
        any |= marks[i];
    return any;
}

/* Answers number 0 and, as value, the or of all words and marks. */
reply once(const uint64_t *words, size_t nwords, const uint32_t *table_marks, size_t ntables, const uint8_t *bytes,
           size_t nbytes, const uint32_t *frame_marks, size_t nframes) {
    (void)bytes;
    (void)nbytes;
    return (reply){0, or_words(words, nwords) | or_marks(table_marks, ntables) | or_marks(frame_marks, nframes)};
}
