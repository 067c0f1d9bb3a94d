/* store.c: the store that is attacked, its lengths, roots and pages, read without the library. */
#include "store.h"

#include "../bench/check.h"

enum { SCRAMBLED = 1 << 16 };

lent slices[SLICES];

static enum { UNKNOWN, WELL, ILL } judged;

void make_rooms(void) {
    slices[WORDS] = new_lent("words", 8, ENTRIES * (MAX_TABLES + 2));
    slices[TABLE_MARKS] = new_lent("table marks", 4, MAX_TABLES + 2);
    slices[BYTES] = new_lent("bytes", 1, (size_t)PAGE_BYTES * (MAX_FRAMES + 2));
    slices[FRAME_MARKS] = new_lent("frame marks", 4, MAX_FRAMES + 2);
    slices[BUFFER] = new_lent("buffer", 1, MAX_BUFFER);
}

void place_slices(unsigned ends, size_t gap) {
    for (int i = 0; i < SLICES; i++) {
        slices[i].at_end = ends >> i & 1;
        slices[i].gap = slices[i].width * gap;
    }
}

void lend_store(size_t tables, size_t frames, uint8_t byte) {
    const size_t counts[] = {ENTRIES * tables, tables, PAGE_BYTES * frames, frames};
    const size_t more[] = {ENTRIES + 1, 2, PAGE_BYTES + 1, 2};
    for (int i = 0; i < STORE_SLICES; i++) {
        paint(&slices[i], counts[i] + more[i], byte);
        lend(&slices[i], counts[i]);
    }
    paint(&slices[BUFFER], MAX_BUFFER, byte);
    lend(&slices[BUFFER], 0);
    forget();
}

void scramble(uint64_t seed) {
    for (int i = 0; i < STORE_SLICES; i++) {
        size_t size = slices[i].width * slices[i].count;
        for (size_t k = 0; k < size && k < SCRAMBLED; k++) {
            seed = seed * 6364136223846793005 + 1442695040888963407;
            slices[i].start[k] = seed >> 56;
        }
        keep(&slices[i]);
    }
    forget();
}

bool lengths_right(void) {
    size_t tables = slices[TABLE_MARKS].count, frames = slices[FRAME_MARKS].count;
    return tables >= 1 && tables <= MAX_TABLES && frames >= 1 && frames <= MAX_FRAMES &&
           slices[WORDS].count == ENTRIES * tables && slices[BYTES].count == PAGE_BYTES * frames;
}

bool is_root(uint64_t number) { return number < slices[TABLE_MARKS].count && THE_TABLE_MARKS[number] == 1; }

/* The table that a word points to, or 0, which no pointer of a well-formed store names below a root. */
static uint64_t pointed(uint64_t word) {
    uint64_t t = (word >> 10) - 0x100000;
    return word % 1024 == 1 && t < slices[TABLE_MARKS].count ? t : 0;
}

uint64_t pages_mapped(uint64_t root) {
    if (!lengths_right() || !is_root(root))
        return 0;
    uint64_t below = THE_WORDS[ENTRIES * root];
    uint64_t last = below == 0 ? 0 : THE_WORDS[ENTRIES * pointed(below)];
    if (last == 0)
        return 0;
    const uint64_t *leaves = THE_WORDS + ENTRIES * pointed(last);
    uint64_t page = 0;
    while (page < ENTRIES && leaves[page] % 2 == 1)
        page++;
    return page;
}

bool well_formed(void) {
    if (judged == UNKNOWN)
        judged = check_c(STORE).value == 1 ? WELL : ILL;
    return judged == WELL;
}

void forget(void) { judged = UNKNOWN; }
