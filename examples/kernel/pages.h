/* What the kernel maps where. */
#ifndef PAGES_H
#define PAGES_H

#include <stdint.h>

/* A frame that the kernel has at its own address and at another. */
#define KERNEL_PAGE UINT64_C(0x88008000)
#define OTHER_ADDRESS UINT64_C(0x1234567000)
/* The user code, in every root. */
#define USER_CODE UINT64_C(0x10000)
/* Eight more pages of the user code's frame, with U and each set of R, W and X. */
#define PERMISSIONS UINT64_C(0x20000)
/* Two neighbours in one table. */
#define TWO_PAGES UINT64_C(0x4000)

/* Pages of user mode from va on, which have the frames from pa on. */
struct range {
    const char *what;
    uint64_t va, pa, pages, perm;
};
enum { RANGES = 6 };
extern const struct range ranges[RANGES];

/* Map in a root, and answer how many tables that took; a refusal ends the run. */
uint64_t map_kernel(uint64_t root);
uint64_t map_ranges(uint64_t root);
uint64_t map_permissions(uint64_t root);
uint64_t must_map(uint64_t root, uint64_t va, uint64_t pa, uint64_t size, uint64_t perm);

/* Translates by the tables of a root from here on, until set_satp(0); a refusal ends the run. */
void switch_to(uint64_t root);

#endif
