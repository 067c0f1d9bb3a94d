/* compare.c: shows that the three checks answer the same, on stores that are timed and on others. */
#include "compare.h"

#include <inttypes.h>
#include <stdbool.h>
#include <stdio.h>
#include <stdlib.h>

#include "change.h"

static bool same(reply a, reply b) { return a.number == b.number && a.value == b.value; }

static void expect(const char *who, const char *what, const kind *k, reply found, reply wanted) {
    if (same(found, wanted))
        return;
    fprintf(stderr, "bench: %s answers %" PRIu64 " %" PRIu64 " on %s %s, where %" PRIu64 " %" PRIu64 " is right\n", who,
            found.number, found.value, what, k->name, wanted.number, wanted.value);
    exit(1);
}

void compare_known(const store *s, const kind *k) {
    reply wanted = {0, k->answer};
    expect("C", "the store", k, ask(check_c, s), wanted);
    expect("Rust", "the store", k, ask(check_rust, s), wanted);
    expect("ours", "the store", k, ask(ronakvesh_check, s), wanted);
}

/* Asks with lengths of the caller's choice. All of them are wrong. */
static void compare_lengths(const store *s, const kind *k, size_t nwords, size_t ntables, size_t nbytes,
                            size_t nframes) {
    check *const calls[] = {check_c, check_rust, ronakvesh_check};
    const char *const names[] = {"C", "Rust", "ours"};
    reply wanted = {1, 0};
    for (size_t i = 0; i < 3; i++) {
        reply found = calls[i](s->words, nwords, s->table_marks, ntables, s->bytes, nbytes, s->frame_marks, nframes);
        expect(names[i], "wrong sizes of", k, found, wanted);
    }
}

void compare_sizes(store *s, size_t ntables) {
    for (const kind *k = kinds; k < kinds + KINDS; k++) {
        build(s, k, ntables);
        size_t t = s->ntables, f = s->nframes, w = ENTRIES * t, b = FRAME_BYTES * f;
        compare_lengths(s, k, w - 1, t, b, f);
        compare_lengths(s, k, w + 1, t, b, f);
        compare_lengths(s, k, w, t - 1, b, f);
        compare_lengths(s, k, w, t, b - 1, f);
        compare_lengths(s, k, w, t, b + FRAME_BYTES, f);
        compare_lengths(s, k, w, t, b, f - 1);
        compare_lengths(s, k, 0, 0, b, f);
        compare_lengths(s, k, w, t, 0, 0);
        compare_lengths(s, k, ENTRIES * (MAX_TABLES + 1), MAX_TABLES + 1, b, f);
        compare_lengths(s, k, w, t, FRAME_BYTES * (MAX_FRAMES + 1), MAX_FRAMES + 1);
    }
}

void compare_changed(store *s, size_t ntables, size_t count) {
    uint64_t seed = 88172645463325252;
    size_t well = 0;
    for (const kind *k = kinds; k < kinds + KINDS; k++)
        for (size_t i = 0; i < count; i++) {
            build(s, k, ntables);
            for (size_t n = 0; n <= i % 4; n++)
                change(s, &seed);
            reply wanted = ask(check_c, s);
            expect("Rust, unlike C,", "a change of", k, ask(check_rust, s), wanted);
            expect("ours, unlike C,", "a change of", k, ask(ronakvesh_check, s), wanted);
            well += wanted.value;
        }
    fprintf(stderr, "%zu changed stores of %zu tables: the same answers (%zu well formed, %zu not)\n", count * KINDS,
            ntables, well, count * KINDS - well);
}
