/* What the kernel shows, each in a few lines on the console. Every function says whether it saw what it must. */
#ifndef SHOW_H
#define SHOW_H

#include <stdbool.h>
#include <stdint.h>

/* refusals.c */
bool show_held_window(uint64_t root);
bool show_taken_page(uint64_t root);

/* translation.c: the library's translation beside the machine's. */
bool show_mapped_pages(uint64_t root);
bool show_other_addresses(uint64_t root);
bool show_permissions(uint64_t root);

/* frames.c: which frame a page has. */
bool show_kernel_translated(uint64_t root);
bool show_second_address(uint64_t root);
bool show_two_pages(uint64_t root);
bool show_two_roots(uint64_t first, uint64_t second);

#endif
