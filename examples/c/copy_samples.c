/* Bytes are copied between the kernel and a process, a string is read, and a child gets copies of its parent's pages. */
#include "sample_store.h"

static uint8_t buffer[16], buffer_before[16];

/* Prints the reply of a copy, and where a refusal has changed the store or the buffer. */
static void copied(const char *label, ronakvesh_reply r) {
    outcome(label, r);
    if (r.number != 0 && memcmp(buffer_before, buffer, sizeof buffer) != 0)
        printf("%s the buffer has changed\n", label);
}

/* Fills the buffer with dots, and keeps it and the store. */
static void lend(void) {
    memset(buffer, '.', sizeof buffer);
    memcpy(buffer_before, buffer, sizeof buffer);
    keep();
}

static void out(const char *label, uint64_t va, const char *text, size_t count) {
    lend();
    copied(label, ronakvesh_copy_out(STORE, 0, va, (const uint8_t *)text, count));
}

static void in(const char *label, uint64_t va, size_t count) {
    lend();
    copied(label, ronakvesh_copy_in(STORE, 0, va, buffer, count));
    printf("  %.16s\n", (const char *)buffer);
}

static void in_str(const char *label, uint64_t va, size_t count) {
    lend();
    ronakvesh_reply r = ronakvesh_copy_in_str(STORE, 0, va, buffer, count);
    copied(label, r);
    printf("  %.16s zero met: %d\n", (const char *)buffer, ronakvesh_zero_was_met(r, count));
}

static void copy(const char *label, uint64_t child, uint64_t size) {
    lend();
    copied(label, ronakvesh_uvm_copy(STORE, 0, child, size));
}

/* Page 1 has frame 0 and page 0 has frame 1: bytes over the page end go to both. */
static void bytes_of_two_pages(void) {
    const uint64_t end = (uint64_t)1 << 38;

    start(6);
    reply("page 1:", ronakvesh_uvm_alloc(STORE, 0, 4096, 8192));
    reply("page 0:", ronakvesh_uvm_init(STORE, 0, buffer, 0));
    out("5 bytes to 4093:", 4093, "abcde", 5);
    printf("frame 1 ends %.3s, frame 0 begins %.2s\n", (const char *)&bytes[8189], (const char *)bytes);
    in("5 bytes from 4093:", 4093, 5);
    in("3 bytes from 4093:", 4093, 3);
    in("2 bytes from 8191:", 8191, 2);
    out("1 byte to 8191:", 8191, "z", 1);
    out("2 bytes to 8191:", 8191, "yy", 2);
    printf("byte 4095 of frame 0: %c\n", bytes[4095]);
    in("0 bytes from 8191:", 8191, 0);
    in("0 bytes from 8192:", 8192, 0);
    in("0 bytes from 2^38:", end, 0);
    map("page 2, a foreign frame:", 8192, 0x80000000, 4096, 22);
    out("2 bytes to 8191:", 8191, "yy", 2);
    reply("U of page 0:", ronakvesh_uvm_clear(STORE, 0, 0));
    in("2 bytes from 4095:", 4095, 2);
    check();
}

/* A string ends with its zero or with the buffer. */
static void strings(void) {
    start(3);
    reply("page 1:", ronakvesh_uvm_alloc(STORE, 0, 4096, 8192));
    reply("page 0:", ronakvesh_uvm_init(STORE, 0, buffer, 0));
    out("a string to 4092:", 4092, "/bin/sh", 8);
    in_str("room for 16:", 4092, 16);
    in_str("room for 8:", 4092, 8);
    in_str("room for 7:", 4092, 7);
    in_str("room for 4:", 4092, 4);
    in_str("an empty string:", 4099, 16);
    in_str("no room:", 4099, 0);
    out("a string to 8189:", 8189, "sh", 3);
    in_str("page 2 behind the zero:", 8189, 16);
    out("no zero:", 8191, "!", 1);
    in_str("page 2 on the way:", 8189, 16);
    in_str("page 2 behind the buffer:", 8189, 3);
    in_str("no room, page 2:", 8192, 0);
    check();
}

/* The child's pages have frames of their own. */
static void child(void) {
    start(6);
    reply("pages 0 and 1:", ronakvesh_uvm_alloc(STORE, 0, 0, 8192));
    reply("child:", ronakvesh_uvmcreate(STORE));
    out("a string to 4092:", 4092, "/bin/sh", 8);
    copy("onto itself:", 0, 8192);
    copy("no root:", 4, 8192);
    copy("4095 bytes:", 3, 4095);
    copy("2^38 + 1 bytes:", 3, ((uint64_t)1 << 38) + 1);
    copy("12288 bytes:", 3, 12288);
    copy("8192 bytes:", 3, 8192);
    copy("again:", 3, 4096);
    find("page 0 of the parent:", 0);
    reply("page 0 of the child:", ronakvesh_pgt_translate(STORE, 3, 0));
    out("another string:", 4092, "/bin/ls", 8);
    lend();
    reply("the child's:", ronakvesh_copy_in_str(STORE, 3, 4092, buffer, 16));
    printf("  %.16s\n", (const char *)buffer);
    show();
    check();
}

int main(void) {
    bytes_of_two_pages();
    strings();
    child();
    return 0;
}
