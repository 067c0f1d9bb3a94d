/* input.c: draws numbers, most of them close to a bound of document 01. */
#include "input.h"

#include "addresses.h"
#include "store.h"

#define LENGTH(list) (sizeof(list) / sizeof *(list))

bool spent(const input *in) { return in->at == in->end; }

uint8_t next_byte(input *in) { return spent(in) ? 0 : *in->at++; }

size_t next_below(input *in, size_t n) { return next_byte(in) % n; }

uint64_t next_number(input *in) {
    uint64_t number = 0;
    for (int i = 0; i < 8; i++)
        number = number << 8 | next_byte(in);
    return number;
}

/* A distance from a bound: mostly none. */
static uint64_t near(input *in) {
    static const uint64_t steps[] = {1, 4095, 2048, 4096, 8, (uint64_t)-1, (uint64_t)-4096, (uint64_t)-4095};
    uint8_t byte = next_byte(in);
    return byte < 192 ? 0 : steps[byte % LENGTH(steps)];
}

/* The root that has this place among the roots of the store, which are counted round; 0 where there is none. */
static uint64_t root_at(size_t place) {
    size_t roots = 0, tables = slices[TABLE_MARKS].count;
    for (size_t t = 0; t < tables; t++)
        roots += is_root(t);
    if (roots == 0)
        return 0;
    uint64_t found = 0;
    for (size_t t = 0, left = place % roots + 1; left > 0; t++)
        if (is_root(t)) {
            found = t;
            left--;
        }
    return found;
}

static uint64_t draw_root(input *in) {
    uint8_t byte = next_byte(in);
    if (byte < 224)
        return root_at(byte);
    if (byte < 248)
        return byte % (slices[TABLE_MARKS].count + 2);
    return byte < 252 ? (uint64_t)-1 << (byte - 248) * 16 : next_number(in);
}

/* A root for a child: where there are two roots, mostly another than the parent. */
static uint64_t draw_child(input *in, uint64_t parent) {
    uint8_t byte = next_byte(in);
    if (byte >= 224)
        return draw_root(in);
    return root_at(byte) != parent ? root_at(byte) : root_at(byte + 1);
}

static uint64_t draw_virtual(input *in, uint64_t root) {
    static const uint64_t pages[] = {510, 511, 512, 513, 1023, 1024, 1025, 262142, 262143, 262144, 524287, 67108862};
    static const uint64_t bounds[] = {TRAMPOLINE, TRAPFRAME, TRAMPOLINE,        TRAPFRAME,       MAXVA - 4096, MAXVA,
                                      2 * MAXVA,  MAXPA,     (uint64_t)1 << 63, (uint64_t)-4096, (uint64_t)-1, 0};
    uint8_t byte = next_byte(in);
    if (byte < 128)
        return byte % 8 * 4096 + near(in);
    if (byte < 160)
        return pages_mapped(root) * 4096 + near(in);
    if (byte < 200)
        return pages[byte % LENGTH(pages)] * 4096 + near(in);
    return byte < 250 ? bounds[byte % LENGTH(bounds)] + near(in) : next_number(in);
}

static uint64_t draw_physical(input *in) {
    static const uint64_t bounds[] = {HELD - 4096, HELD - 8192,  HELD,         POOL - 4096, POOL, HELD_END - 4096,
                                      HELD_END,    MAXPA - 4096, MAXPA - 8192, MAXPA,       0,    (uint64_t)-1};
    uint8_t byte = next_byte(in);
    if (byte < 144)
        return FOREIGN + byte * 4096 + near(in);
    return byte < 248 ? bounds[byte % LENGTH(bounds)] + near(in) : next_number(in);
}

/* A number of pages. */
static uint64_t draw_pages(input *in, uint64_t root) {
    static const uint64_t bounds[] = {255,
                                      256,
                                      511,
                                      512,
                                      513,
                                      1024,
                                      4096,
                                      262144,
                                      MAXVA / 4096 - 1,
                                      MAXVA / 4096,
                                      MAXVA / 4096 + 1,
                                      (uint64_t)1 << 52};
    uint8_t byte = next_byte(in);
    if (byte < 120)
        return byte % 10;
    if (byte < 208)
        return pages_mapped(root);
    return byte < 248 ? bounds[byte % LENGTH(bounds)] : next_number(in);
}

static uint64_t draw_size(input *in, uint64_t root) { return draw_pages(in, root) * 4096 + near(in); }

static uint64_t draw_permissions(input *in) {
    static const uint64_t bounds[] = {0, 1, 22, 30, 31, 22, 31, 1023, 31, 1024, 15, 6};
    uint8_t byte = next_byte(in);
    if (byte < 220)
        return bounds[byte % LENGTH(bounds)];
    return byte < 250 ? (uint64_t)byte << (byte % 4) : next_number(in);
}

static uint64_t draw_any(input *in) {
    static const uint64_t bounds[] = {0,    4096, MAXVA, MAXPA, (uint64_t)1 << 54, (uint64_t)-4096, (uint64_t)-1,
                                      1023, 1,    2};
    uint8_t byte = next_byte(in);
    return byte < 128 ? bounds[byte % LENGTH(bounds)] + near(in) : next_number(in);
}

void draw_numbers(input *in, const char *kinds, uint64_t *numbers) {
    for (size_t i = 0; kinds[i] != 0; i++)
        switch (kinds[i]) {
        case 'r':
            numbers[i] = draw_root(in);
            break;
        case 'c':
            numbers[i] = draw_child(in, numbers[0]);
            break;
        case 'v':
            numbers[i] = draw_virtual(in, numbers[0]);
            break;
        case 'p':
            numbers[i] = draw_physical(in);
            break;
        case 's':
            numbers[i] = draw_size(in, numbers[0]);
            break;
        case 'n':
            numbers[i] = draw_pages(in, numbers[0]);
            break;
        case 'm':
            numbers[i] = draw_permissions(in);
            break;
        case 'f':
            numbers[i] = next_below(in, 2);
            break;
        default:
            numbers[i] = draw_any(in);
        }
}

size_t draw_length(input *in) {
    static const size_t bounds[] = {0, 1, 2, 4094, 4095, 4096, 4097, 8191, 8192, 8193, 12288, MAX_BUFFER};
    uint8_t byte = next_byte(in);
    return byte < 160 ? bounds[byte % LENGTH(bounds)] : byte < 224 ? byte : (size_t)next_byte(in) * 80;
}
