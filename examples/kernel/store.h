/* The kernel's store, and the library's calls on it. All of them need translation off: the store's memory is never mapped. */
#ifndef STORE_H
#define STORE_H

#include <stdbool.h>

#include "ronakvesh.h"

enum { TABLES = 32, FRAMES = 1 };

ronakvesh_reply set_up(void);
ronakvesh_reply check(void);
ronakvesh_reply new_root(void);
ronakvesh_reply map(uint64_t root, uint64_t va, uint64_t pa, uint64_t size, uint64_t perm);
ronakvesh_reply translate(uint64_t root, uint64_t va);
ronakvesh_reply satp_of(uint64_t root);

/* Copies the four slices, and says whether they are still as they were then. */
void remember(void);
bool unchanged(void);

#endif
