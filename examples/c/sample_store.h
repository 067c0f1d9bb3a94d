/* A store of a few tables and frames for the samples, and calls on its root 0 that print their replies. */
#ifndef SAMPLE_STORE_H
#define SAMPLE_STORE_H

#include <inttypes.h>
#include <stdio.h>
#include <string.h>

#include "ronakvesh.h"

enum { MOST = 6, FRAMES = 4 };

/* The first word of table 2, which is that of page 0 where one block is mapped. */
enum { WORD = 512 * 2 };

static uint64_t words[512 * MOST], words_before[512 * MOST];
static uint32_t table_marks[MOST], table_marks_before[MOST], frame_marks[FRAMES], frame_marks_before[FRAMES];
static uint8_t bytes[4096 * FRAMES], bytes_before[4096 * FRAMES];
static size_t tables;

/* The four slices, as each call takes them. */
#define STORE words, 512 * tables, table_marks, tables, bytes, sizeof bytes, frame_marks, FRAMES

/* Prints a reply: its value, or "no" and the number of its refusal. */
static void reply(const char *label, ronakvesh_reply r) {
    if (r.number == 0)
        printf("%s %" PRIu64 "\n", label, r.value);
    else
        printf("%s no %" PRIu64 "\n", label, r.number);
}

/* Keeps what the slices hold. */
static void keep(void) {
    memcpy(words_before, words, sizeof words);
    memcpy(table_marks_before, table_marks, sizeof table_marks);
    memcpy(bytes_before, bytes, sizeof bytes);
    memcpy(frame_marks_before, frame_marks, sizeof frame_marks);
}

/* Do the slices hold what was kept? */
static bool as_kept(void) {
    return memcmp(words_before, words, sizeof words) == 0 && memcmp(bytes_before, bytes, sizeof bytes) == 0 &&
           memcmp(table_marks_before, table_marks, sizeof table_marks) == 0 &&
           memcmp(frame_marks_before, frame_marks, sizeof frame_marks) == 0;
}

/* Prints the reply of a call, and says where a refusal has changed what was kept before it. */
static void outcome(const char *label, ronakvesh_reply r) {
    reply(label, r);
    if (r.number != 0 && !as_kept())
        printf("%s the store has changed\n", label);
}

/* Sets up a store of t tables with one root. */
static void start(size_t t) {
    tables = t;
    reply("set up:", ronakvesh_set_up(STORE));
    reply("root:", ronakvesh_uvmcreate(STORE));
}

static void map(const char *label, uint64_t va, uint64_t pa, uint64_t size, uint64_t perm) {
    keep();
    outcome(label, ronakvesh_map(STORE, 0, va, pa, size, perm));
}

static void find(const char *label, uint64_t va) {
    reply(label, ronakvesh_pgt_translate(STORE, 0, va));
}

static void check(void) {
    reply("well formed:", ronakvesh_check(STORE));
}

/* Prints the words of pages 0 to 3 and the frame marks. */
static inline void show(void) {
    printf("words");
    for (size_t i = 0; i < 4; i++)
        printf(" %" PRIx64, words[WORD + i]);
    printf(", frame marks");
    for (size_t i = 0; i < FRAMES; i++)
        printf(" %" PRIu32, frame_marks[i]);
    printf("\n");
}

#endif
