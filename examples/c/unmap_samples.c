/* Pages are mapped, unmapped and mapped again, a pool frame is given back, and U is taken from a page. */
#include "sample_store.h"

static void unmap(const char *label, uint64_t va, uint64_t pages, bool freeing) {
    keep();
    outcome(label, ronakvesh_uvm_unmap(STORE, 0, va, pages, freeing));
}

static void clear(const char *label, uint64_t va) {
    keep();
    outcome(label, ronakvesh_uvm_clear(STORE, 0, va));
}

/* Pages leave root 0, and come again without taking a table. */
static void unmapping(void) {
    const uint64_t frame = 0x80000000, end = (uint64_t)1 << 38;

    start(3);
    map("two pages:", 4096, frame, 8192, 22);
    unmap("pages 0 and 1:", 0, 2, false);
    unmap("pages 1 to 3:", 4096, 3, true);
    unmap("va 4097:", 4097, 1, false);
    unmap("va 4097, no page:", 4097, 0, false);
    unmap("va 2^38:", end, 1, false);
    unmap("va 2^38, no page:", end, 0, false);
    unmap("2^64 - 1 pages:", 0, UINT64_MAX, true);
    unmap("pages 1 and 2:", 4096, 2, false);
    unmap("page 1 again:", 4096, 1, false);
    map("two pages again:", 4096, frame, 8192, 22);
    map("page 3, permissions 0:", 12288, frame, 1, 0);
    unmap("flags 1:", 4096, 3, false);
    show();
}

/* Page 0 has pool frame 2, and page 1 a frame outside the pool. */
static void freeing(void) {
    words[WORD] = 0x4400081f;
    frame_marks[2] = WORD + 2;
    bytes[4096 * 2] = 9;
    show();
    check();
    unmap("a pool frame:", 0, 2, false);
    unmap("a pool frame, freeing:", 0, 2, true);
    printf("its first byte: %d\n", bytes[4096 * 2]);
    show();
    check();
}

/* U is taken from page 2; page 1 is not mapped, and page 512 has no table of level 0. */
static void clearing(void) {
    find("page 2:", 8192);
    clear("clear page 2:", 8192 + 4095);
    find("page 2:", 8192);
    clear("clear page 1:", 4096);
    clear("clear page 512:", (uint64_t)1 << 21);
    clear("clear at 2^38:", (uint64_t)1 << 38);
    show();
    check();
}

int main(void) {
    unmapping();
    freeing();
    clearing();
    return 0;
}
