/* Prints sample entries. */
#include <inttypes.h>
#include <stdio.h>

#include "ronakvesh.h"

/* Prints a reply: its value, or "no" and the number of its refusal. */
static void reply(const char *label, ronakvesh_reply r) {
    if (r.number == 0)
        printf("%s 0x%" PRIx64 "\n", label, r.value);
    else
        printf("%s no %" PRIu64 "\n", label, r.number);
}

/* Prints whether an entry has V and whether it has U. */
static void bits(const char *label, uint64_t entry) {
    printf("%s valid %d user %d\n", label, ronakvesh_entry_is_valid(entry), ronakvesh_entry_is_user(entry));
}

int main(void) {
    const uint64_t table_3 = 0x100003000, frame_2 = 0x110002000, beyond = (uint64_t)1 << 56;
    ronakvesh_reply pointer = ronakvesh_entry_as_pte(table_3);

    reply("S3", ronakvesh_entry_write_perm(0x80000000, 6));
    reply("S4", ronakvesh_entry_write_perm(0x80000fff, 6));
    pointer.value = ronakvesh_entry_add_valid_bit(pointer.value);
    reply("S5", pointer);
    reply("S6", ronakvesh_entry_write_perm(frame_2, 31));
    printf("S12 0x%" PRIx64 " %" PRIu64 "\n", ronakvesh_entry_as_pagetable(0x20000007), ronakvesh_entry_as_flags(0x20000007));
    reply("permissions 1024:", ronakvesh_entry_write_perm(0x80000000, 1024));
    reply("pa 2^56:", ronakvesh_entry_write_perm(beyond, 6));
    reply("both:", ronakvesh_entry_write_perm(beyond, 1024));
    bits("V only:", 1);
    bits("U only:", 16);
    return 0;
}
