/* lent.c: slices between guards, and what they held before a call. */
#include "lent.h"

#include <stdio.h>
#include <stdlib.h>
#include <string.h>
#include <sys/mman.h>
#include <unistd.h>

enum { GUARD = 1 << 18, MARGIN = 64 };

static void no_memory(void) {
    fputs("attack: no memory\n", stderr);
    exit(4);
}

lent new_lent(const char *name, size_t width, size_t most) {
    lent l = {.name = name, .width = width, .at_end = true};
    size_t page = sysconf(_SC_PAGESIZE);
    l.size = (width * most + 2 * MARGIN + page - 1) / page * page;
    uint8_t *place = mmap(NULL, l.size + 2 * GUARD, PROT_NONE, MAP_PRIVATE | MAP_ANONYMOUS, -1, 0);
    if (place == MAP_FAILED || mprotect(place + GUARD, l.size, PROT_READ | PROT_WRITE) != 0)
        no_memory();
    l.room = place + GUARD;
    l.start = l.room + l.size;
    l.kept = malloc(l.size);
    if (l.kept == NULL)
        no_memory();
    return l;
}

/* The bytes in front of the slice and behind it that no call may touch. */
static size_t front(const lent *l) { return l->at_end ? MARGIN : l->gap; }
static size_t back(const lent *l) { return l->at_end ? l->gap : MARGIN; }

/* Where count elements begin. */
static uint8_t *place_of(const lent *l, size_t count) {
    return l->at_end ? l->room + l->size - l->gap - l->width * count : l->room + l->gap;
}

static size_t size_of(const lent *l) { return l->width * l->count; }

void keep(lent *l) { memcpy(l->kept, l->start - front(l), front(l) + size_of(l) + back(l)); }

void lend(lent *l, size_t count) {
    l->count = count;
    l->start = place_of(l, count);
    keep(l);
}

void paint(lent *l, size_t count, uint8_t byte) {
    memset(place_of(l, count) - front(l), byte, front(l) + l->width * count + back(l));
}

bool unchanged(const lent *l) { return memcmp(l->kept, l->start - front(l), front(l) + size_of(l) + back(l)) == 0; }

const uint8_t *kept_slice(const lent *l) { return l->kept + front(l); }

bool margins_unchanged(const lent *l) {
    const uint8_t *behind = kept_slice(l) + size_of(l);
    return memcmp(l->kept, l->start - front(l), front(l)) == 0 && memcmp(behind, l->start + size_of(l), back(l)) == 0;
}

bool unchanged_from(const lent *l, size_t first) {
    size_t skipped = l->width * first;
    return memcmp(kept_slice(l) + skipped, l->start + skipped, size_of(l) - skipped) == 0;
}

bool in_guard(const lent *l, const void *address) {
    uintptr_t at = (uintptr_t)address, room = (uintptr_t)l->room;
    return (at >= room - GUARD && at < room) || (at >= room + l->size && at < room + l->size + GUARD);
}
