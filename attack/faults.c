/* faults.c: calls with deliberate faults, of which the environment's ATTACK_FAULT names one. The linker puts them in
 * the place of the library's (--wrap); attack/try-faults shows that the attack finds each. */
#include <stdlib.h>
#include <string.h>

#include "ronakvesh.h"

/* The four slices as a call takes them, all to be written, and as they are handed on. */
#define SLICES                                                                                                         \
    uint64_t *words, size_t word_count, uint32_t *table_marks, size_t tables, uint8_t *bytes, size_t byte_count,       \
        uint32_t *frame_marks, size_t frames
#define STORE words, word_count, table_marks, tables, bytes, byte_count, frame_marks, frames

typedef ronakvesh_reply reply;

/* Is this the fault that is tried? */
static bool tried(const char *fault) {
    static const char *wanted;
    if (wanted == NULL)
        wanted = getenv("ATTACK_FAULT") == NULL ? "" : getenv("ATTACK_FAULT");
    return strcmp(wanted, fault) == 0;
}

static volatile uint64_t taken;

/* Declares the library's call, and begins the one that takes its place. */
#define WRAP(name, ...)                                                                                                \
    reply __real_ronakvesh_##name(__VA_ARGS__);                                                                        \
    reply __wrap_ronakvesh_##name(__VA_ARGS__);                                                                        \
    reply __wrap_ronakvesh_##name(__VA_ARGS__)

WRAP(set_up, SLICES) {
    reply r = __real_ronakvesh_set_up(STORE);
    if (tried("set-up-leaves-a-byte") && r.number == 0)
        bytes[byte_count - 1] = 1;
    if (tried("set-up-takes-a-wrong-length") && byte_count == 4096 * frames + 1)
        r.number = 0;
    return r;
}

WRAP(check, SLICES) {
    reply r = __real_ronakvesh_check(STORE);
    return tried("check-says-yes") && r.number == 0 ? (reply){0, 1} : r;
}

WRAP(map, SLICES, uint64_t root, uint64_t va, uint64_t pa, uint64_t size, uint64_t perm) {
    reply r = __real_ronakvesh_map(STORE, root, va, pa, size, perm);
    if (tried("map-refused-turns-a-bit") && r.number == 17)
        words[word_count / 2] ^= 1;
    if (tried("map-leaves-a-mark-out") && r.number == 0 && r.value == 2)
        table_marks[tables - 1] = 0;
    if (tried("map-takes-a-table-uncounted") && r.number == 0 && r.value == 2)
        r.value = 1;
    return r;
}

WRAP(pgt_translate, SLICES, uint64_t root, uint64_t va) {
    reply r = __real_ronakvesh_pgt_translate(STORE, root, va);
    if (tried("translate-gives-another-number") && r.number == 12)
        r.number = 13;
    if (tried("translate-reads-past-the-words") && r.number == 0)
        taken = words[word_count];
    if (tried("translate-reads-before-the-marks") && r.number == 0)
        taken = table_marks[-1];
    return r;
}

WRAP(as_satp, SLICES, uint64_t root) {
    reply r = __real_ronakvesh_as_satp(STORE, root);
    return tried("satp-3-before-2") && r.number == 2 && root >= tables ? (reply){3, 0} : r;
}

WRAP(uvmcreate, SLICES) {
    reply r = __real_ronakvesh_uvmcreate(STORE);
    return tried("create-refused-with-a-value") && r.number == 17 ? (reply){17, 1} : r;
}

WRAP(uvm_clear, SLICES, uint64_t root, uint64_t va) {
    reply r = __real_ronakvesh_uvm_clear(STORE, root, va);
    if (tried("clear-writes-a-byte") && r.number == 0)
        bytes[0]++;
    if (tried("clear-writes-before-the-words") && r.number == 0)
        words[-1]++;
    return r;
}

WRAP(uvm_alloc, SLICES, uint64_t root, uint64_t old_size, uint64_t new_size) {
    reply r = __real_ronakvesh_uvm_alloc(STORE, root, old_size, new_size);
    return tried("alloc-takes-a-broken-store") && r.number == 2 ? (reply){0, new_size} : r;
}

WRAP(copy_in, SLICES, uint64_t root, uint64_t va, uint8_t *buffer, size_t count) {
    reply r = __real_ronakvesh_copy_in(STORE, root, va, buffer, count);
    if (tried("copy-in-refused-writes") && r.number == 11 && count > 0)
        buffer[count - 1] ^= 128;
    if (tried("copy-in-writes-past-the-buffer") && r.number == 0)
        buffer[count] ^= 128;
    return r;
}

WRAP(copy_out, SLICES, uint64_t root, uint64_t va, const uint8_t *source, size_t count) {
    if (tried("copy-out-reads-past-the-source"))
        taken = source[count];
    return __real_ronakvesh_copy_out(STORE, root, va, source, count);
}

WRAP(copy_in_str, SLICES, uint64_t root, uint64_t va, uint8_t *buffer, size_t count) {
    reply r = __real_ronakvesh_copy_in_str(STORE, root, va, buffer, count);
    if (tried("str-writes-the-zero") && r.number == 0 && r.value < count)
        buffer[r.value] = 0;
    return r;
}

WRAP(uvm_copy, SLICES, uint64_t parent, uint64_t child, uint64_t size) {
    if (tried("copy-reads-past-the-frame-marks"))
        taken = frame_marks[frames];
    return __real_ronakvesh_uvm_copy(STORE, parent, child, size);
}

WRAP(free, SLICES, uint64_t root) {
    reply r = __real_ronakvesh_free(STORE, root);
    if (tried("free-leaves-a-word") && r.number == 0)
        words[512 * root] = 0x40000001;
    return r;
}

WRAP(page_round_up, uint64_t addr) {
    return tried("round-up-wraps") ? (reply){0, (addr + 4095) / 4096 * 4096} : __real_ronakvesh_page_round_up(addr);
}
