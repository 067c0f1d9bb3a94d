/* main.c: a driver for machines without libFuzzer. It runs the inputs of a folder or a file, and then random inputs and
 * changed ones of the folder, from a fixed seed, until there were enough. */
#include <dirent.h>
#include <signal.h>
#include <stdio.h>
#include <stdlib.h>
#include <string.h>
#include <unistd.h>

#include "finding.h"
#include "sequence.h"
#include "tally.h"

enum { MOST_FILES = 4000, MOST_BYTES = 512, MOST_SECONDS = 60 };

typedef struct {
    uint8_t bytes[MOST_BYTES];
    size_t size;
} sample;

static sample samples[MOST_FILES];
static size_t sample_count;
static uint64_t seed = 88172645463325252;

static uint64_t next_random(void) {
    seed ^= seed << 13;
    seed ^= seed >> 7;
    seed ^= seed << 17;
    return seed;
}

static void read_file(const char *path) {
    FILE *file = fopen(path, "rb");
    if (file == NULL || sample_count == MOST_FILES) {
        fprintf(stderr, "attack: not read: %s\n", path);
        exit(4);
    }
    samples[sample_count].size = fread(samples[sample_count].bytes, 1, MOST_BYTES, file);
    sample_count++;
    fclose(file);
}

static int by_name(const struct dirent **one, const struct dirent **other) {
    return strcmp((*one)->d_name, (*other)->d_name);
}

/* Reads a file, or each file of a folder in the order of their names. */
static void read_samples(const char *path) {
    struct dirent **entries;
    int count = scandir(path, &entries, NULL, by_name);
    if (count < 0)
        return read_file(path);
    for (int i = 0; i < count; i++) {
        char name[4096];
        snprintf(name, sizeof name, "%s/%s", path, entries[i]->d_name);
        if (entries[i]->d_name[0] != '.')
            read_file(name);
        free(entries[i]);
    }
    free(entries);
}

/* A sample with a few bytes changed and its tail sometimes that of another, or random bytes. */
static sample drawn(void) {
    sample s = {.size = 1 + next_random() / 8 % MOST_BYTES};
    for (size_t i = 0; i < s.size; i++)
        s.bytes[i] = next_random() >> 24;
    if (sample_count == 0 || next_random() / 8 % 2 == 0)
        return s;
    sample changed = samples[next_random() / 8 % sample_count];
    for (uint64_t left = 1 + next_random() / 8 % 8; left > 0 && changed.size > 0; left--)
        changed.bytes[next_random() / 8 % changed.size] = next_random() >> 24;
    size_t cut = next_random() / 8 % (changed.size + 1);
    if (s.size > cut && next_random() / 8 % 2 == 0) {
        memcpy(s.bytes, changed.bytes, cut);
        return s;
    }
    return changed;
}

static void late(int signal_number) {
    (void)signal_number;
    found("an input that takes too long");
}

static void run(const sample *s) {
    alarm(MOST_SECONDS);
    run_sequence(s->bytes, s->size);
}

int main(int argc, char **argv) {
    signal(SIGALRM, late);
    for (int i = 1; i < argc; i++)
        read_samples(argv[i]);
    for (size_t i = 0; i < sample_count; i++)
        run(&samples[i]);
    while (!enough()) {
        sample s = drawn();
        run(&s);
    }
    print_tally();
    return 0;
}
