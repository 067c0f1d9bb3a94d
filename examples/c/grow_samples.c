/* The first page of a process is loaded, what the root maps grows and shrinks, and frames are given back and used again. */
#include "sample_store.h"

static uint8_t source[4096];

static void init(const char *label, size_t count) {
    keep();
    outcome(label, ronakvesh_uvm_init(STORE, 0, source, count));
}

static void grow(const char *label, uint64_t old_size, uint64_t new_size) {
    keep();
    outcome(label, ronakvesh_uvm_alloc(STORE, 0, old_size, new_size));
}

static void shrink(const char *label, uint64_t old_size, uint64_t new_size) {
    keep();
    outcome(label, ronakvesh_uvm_dealloc(STORE, 0, old_size, new_size));
}

/* Page 0 gets the source, once. What its frame held before is gone. */
static void loading(void) {
    start(2);
    init("2 tables:", 1);
    start(3);
    memset(source, 7, sizeof source);
    memset(bytes, 9, sizeof bytes);
    init("S15, 4096 bytes:", 4096);
    init("S15, 4095 bytes:", 4095);
    printf("bytes 0, 4094 and 4095 of frame 0: %d %d %d\n", bytes[0], bytes[4094], bytes[4095]);
    printf("byte 0 of frame 1: %d\n", bytes[4096]);
    init("again:", 0);
    find("page 0:", 4095);
    show();
    check();
}

/* Pages come at the end, each with the lowest free frame. */
static void growing(void) {
    const uint64_t end = (uint64_t)1 << 38;

    start(3);
    grow("S13, 1 to 4096:", 1, 4096);
    show();
    grow("S13, 0 to 4097:", 0, 4097);
    show();
    grow("4097 to 1:", 4097, 1);
    grow("4096 to 12288:", 4096, 12288);
    grow("4097 to 20480:", 4097, 20480);
    grow("2^21 to 2^21 + 1:", 1 << 21, (1 << 21) + 1);
    grow("0 to 2^38:", 0, end);
    grow("2^38 to 2^38:", end, end);
    grow("0 to 2^38 + 1:", 0, end + 1);
    grow("2^64 - 1 to 0:", UINT64_MAX, 0);
    check();
}

/* Pages go at the end, and their frames come again, zeroed. */
static void shrinking(void) {
    bytes[4096] = 9;
    shrink("12289 to 1:", 12289, 1);
    shrink("4097 to 4097:", 4097, 4097);
    shrink("4097 to 1:", 4097, 1);
    printf("byte 0 of frame 1: %d\n", bytes[4096]);
    show();
    grow("1 to 16384:", 1, 16384);
    printf("byte 0 of frame 1: %d\n", bytes[4096]);
    show();
    grow("16384 to 16385:", 16384, 16385);
    shrink("16384 to 0:", 16384, 0);
    show();
    map("page 0, permissions 0:", 0, 0x80000000, 4096, 0);
    shrink("flags 1:", 1, 0);
    shrink("2^38 + 1 to 0:", ((uint64_t)1 << 38) + 1, 0);
    check();
}

int main(void) {
    loading();
    growing();
    shrinking();
    return 0;
}
