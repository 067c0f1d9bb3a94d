/* A page is mapped, is not mapped over, and is found: the program that README.md shows. */
#include <inttypes.h>
#include <stdio.h>

#include "ronakvesh.h"

static uint64_t words[512 * 8];
static uint32_t table_marks[8], frame_marks[8];
static uint8_t bytes[4096 * 8];

#define STORE words, 512 * 8, table_marks, 8, bytes, 4096 * 8, frame_marks, 8

int main(void) {
    ronakvesh_set_up(STORE);
    uint64_t root = ronakvesh_uvmcreate(STORE).value;
    ronakvesh_reply mapped = ronakvesh_map(STORE, root, 0x1000, 0x80000000, 4096, 22);
    ronakvesh_reply again = ronakvesh_map(STORE, root, 0x1000, 0x90000000, 4096, 22);
    ronakvesh_reply found = ronakvesh_pgt_translate(STORE, root, 0x1004);
    printf("%" PRIu64 " tables taken, then refused with %" PRIu64 "; the page is at %#" PRIx64 "\n",
           mapped.value, again.number, found.value);
}
