/* damage.c: changes of single words, marks and bytes. */
#include "damage.h"

#include <string.h>

#include "store.h"

enum { MOST_CHANGES = 16 };

static struct {
    int slice;
    size_t index;
    uint64_t old;
} changes[MOST_CHANGES];
static size_t changed;

static uint64_t element(int slice, size_t index) {
    uint64_t value = 0;
    memcpy(&value, slices[slice].start + slices[slice].width * index, slices[slice].width);
    return value;
}

static void set_element(int slice, size_t index, uint64_t value) {
    memcpy(slices[slice].start + slices[slice].width * index, &value, slices[slice].width);
    keep(&slices[slice]);
    forget();
}

/* An element's number: often that of one that is not zero, the next behind a drawn place. */
static size_t some_index(input *in, int slice) {
    size_t count = slices[slice].count, place = ((size_t)next_byte(in) << 8 | next_byte(in)) * 19 % count;
    if (next_byte(in) < 64)
        return place;
    for (size_t i = 0; i < count; i++)
        if (element(slice, (place + i) % count) != 0)
            return (place + i) % count;
    return place;
}

/* A word: empty, with one bit turned, a pointer, a page of the pool or at an end of the held window, or any. */
static uint64_t some_word(input *in, uint64_t old) {
    static const uint64_t ends[] = {0xFFFFF, 0x100000, 0x10FFFF, 0x11FFFF, 0x120000, 0xFFFFFFFFFFF};
    uint8_t byte = next_byte(in);
    switch (next_below(in, 6)) {
    case 0:
        return 0;
    case 1:
        return old ^ (uint64_t)1 << byte % 64;
    case 2:
        return 0x40000001 + 1024 * (byte % (uint64_t)(slices[TABLE_MARKS].count + 2));
    case 3:
        return (0x110000 + byte % (uint64_t)(slices[FRAME_MARKS].count + 2)) << 10 | 31;
    case 4:
        return ends[byte % 6] << 10 | byte;
    default:
        return next_number(in);
    }
}

/* A mark: free, a root, one of a word close to the old one's or to the last, or any. */
static uint64_t some_mark(input *in, uint64_t old) {
    uint8_t byte = next_byte(in);
    switch (next_below(in, 5)) {
    case 0:
        return byte % 3;
    case 1:
        return old + byte % 3 - 1;
    case 2:
        return slices[WORDS].count + byte % 4;
    case 3:
        return byte * 8;
    default:
        return next_number(in);
    }
}

void damage(input *in) {
    static const int kinds[] = {WORDS, WORDS, WORDS, TABLE_MARKS, TABLE_MARKS, FRAME_MARKS, FRAME_MARKS, BYTES};
    if (changed == MOST_CHANGES)
        return;
    int slice = kinds[next_below(in, 8)];
    size_t index = some_index(in, slice);
    uint64_t old = element(slice, index);
    changes[changed].slice = slice;
    changes[changed].index = index;
    changes[changed++].old = old;
    set_element(slice, index,
                slice == WORDS   ? some_word(in, old)
                : slice == BYTES ? next_byte(in)
                                 : some_mark(in, old));
}

void undo_damage(void) {
    for (; changed > 0; changed--)
        set_element(changes[changed - 1].slice, changes[changed - 1].index, changes[changed - 1].old);
}

void accept_damage(void) { changed = 0; }
