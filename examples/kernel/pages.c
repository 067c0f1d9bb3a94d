/* What the kernel maps where. */
#include "pages.h"

#include "console.h"
#include "machine.h"
#include "store.h"

extern const char text_start[], text_end[], data_start[], data_end[];

const struct range ranges[RANGES] = {
    {"neighbours", TWO_PAGES, FRAME_0, 2, R | W | U},
    {"over the end of a block", 0x1ff000, FRAME_0 + 2 * PAGE, 2, R | W | U},
    {"over the end of a group", 0x3ffff000, FRAME_0 + 4 * PAGE, 2, R | W | U},
    {"read only", 0x40201000, FRAME_0 + 6 * PAGE, 1, R | U},
    {"the last page", 0x3ffffff000, FRAME_0 + 7 * PAGE, 1, R | W | U},
    {"three blocks", 0x20100000, MANY_FRAMES, 1100, R | W | U},
};

uint64_t must_map(uint64_t root, uint64_t va, uint64_t pa, uint64_t size, uint64_t perm) {
    ronakvesh_reply r = map(root, va, pa, size, perm | USED);

    if (r.number != 0) {
        say("map %x to %x, size %u: no %u\n", va, pa, size, r.number);
        power_off(false);
    }
    return r.value;
}

/* Maps memory of the kernel to itself. */
static uint64_t map_to_itself(uint64_t root, const char *start, const char *end, uint64_t perm) {
    return must_map(root, (uint64_t)start, (uint64_t)start, (uint64_t)(end - start), perm);
}

uint64_t map_kernel(uint64_t root) {
    uint64_t tables = map_to_itself(root, text_start, text_end, R | X);

    tables += map_to_itself(root, text_end, data_start, R);
    tables += map_to_itself(root, data_start, data_end, R | W);
    tables += must_map(root, UART, UART, PAGE, R | W);
    tables += must_map(root, KERNEL_PAGE, KERNEL_PAGE, PAGE, R | W);
    tables += must_map(root, OTHER_ADDRESS, KERNEL_PAGE, PAGE, R | W);
    return tables + must_map(root, USER_CODE, USER_CODE_FRAME, PAGE, X | U);
}

uint64_t map_ranges(uint64_t root) {
    uint64_t tables = 0;

    for (uint64_t i = 0; i < RANGES; i++)
        tables += must_map(root, ranges[i].va, ranges[i].pa, PAGE * ranges[i].pages, ranges[i].perm);
    return tables;
}

uint64_t map_permissions(uint64_t root) {
    uint64_t tables = 0;

    for (uint64_t set = 0; set < 8; set++)
        tables += must_map(root, PERMISSIONS + PAGE * set, USER_CODE_FRAME, PAGE, R * set | U);
    return tables;
}

void switch_to(uint64_t root) {
    ronakvesh_reply satp = satp_of(root);

    if (satp.number != 0) {
        say("satp of root %u: no %u\n", root, satp.number);
        power_off(false);
    }
    set_satp(satp.value);
}
