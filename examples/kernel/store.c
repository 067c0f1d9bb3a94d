/* The store: words and bytes at the physical addresses of document 01, marks in the kernel's data. */
#include "store.h"

#include "machine.h"
#include "memory.h"

static uint64_t *const words = (uint64_t *)0x100000000;
static uint8_t *const bytes = (uint8_t *)0x110000000;
static uint32_t table_marks[TABLES], frame_marks[FRAMES];

static struct {
    uint64_t words[512 * TABLES];
    uint8_t bytes[PAGE * FRAMES];
    uint32_t table_marks[TABLES], frame_marks[FRAMES];
} before;

/* The four slices as every call takes them. */
#define SLICES words, 512 * TABLES, table_marks, TABLES, bytes, PAGE * FRAMES, frame_marks, FRAMES

ronakvesh_reply set_up(void) {
    return ronakvesh_set_up(SLICES);
}

ronakvesh_reply check(void) {
    return ronakvesh_check(SLICES);
}

ronakvesh_reply new_root(void) {
    return ronakvesh_uvmcreate(SLICES);
}

ronakvesh_reply map(uint64_t root, uint64_t va, uint64_t pa, uint64_t size, uint64_t perm) {
    return ronakvesh_map(SLICES, root, va, pa, size, perm);
}

ronakvesh_reply translate(uint64_t root, uint64_t va) {
    return ronakvesh_pgt_translate(SLICES, root, va);
}

ronakvesh_reply satp_of(uint64_t root) {
    return ronakvesh_as_satp(SLICES, root);
}

void remember(void) {
    memcpy(before.words, words, sizeof before.words);
    memcpy(before.bytes, bytes, sizeof before.bytes);
    memcpy(before.table_marks, table_marks, sizeof table_marks);
    memcpy(before.frame_marks, frame_marks, sizeof frame_marks);
}

bool unchanged(void) {
    return memcmp(before.words, words, sizeof before.words) == 0 && memcmp(before.bytes, bytes, sizeof before.bytes) == 0 &&
           memcmp(before.table_marks, table_marks, sizeof table_marks) == 0 &&
           memcmp(before.frame_marks, frame_marks, sizeof frame_marks) == 0;
}
