/* Which frame a page has, seen by what is written and read there. */
#include "console.h"
#include "machine.h"
#include "pages.h"
#include "show.h"
#include "user.h"

/* The kernel goes on under its own root, with its console. */
bool show_kernel_translated(uint64_t root) {
    switch_to(root);
    uint64_t satp = get_satp();
    say("the kernel runs under satp %x\n", satp);
    set_satp(0);
    return satp == 0x8000000000100000 + root;
}

/* A frame that the kernel has at its own address and at another one. */
bool show_second_address(uint64_t root) {
    volatile uint64_t *const own = (volatile uint64_t *)KERNEL_PAGE, *const other = (volatile uint64_t *)OTHER_ADDRESS;

    switch_to(root);
    own[1] = 1111;
    other[2] = 2222;
    uint64_t by_other = other[1], by_own = own[2];
    set_satp(0);
    say("written at %x, read at %x: %u; written at %x, read at %x: %u\n", KERNEL_PAGE + 8, OTHER_ADDRESS + 8, by_other,
        OTHER_ADDRESS + 16, KERNEL_PAGE + 16, by_own);
    return by_other == 1111 && by_own == 2222 && own[1] == 1111 && own[2] == 2222;
}

/* Two neighbouring pages of two frames. */
bool show_two_pages(uint64_t root) {
    user_store(root, TWO_PAGES, 333);
    user_store(root, TWO_PAGES + PAGE, 444);
    uint64_t first = user_load(root, TWO_PAGES).value, second = user_load(root, TWO_PAGES + PAGE).value;
    say("%x holds %u, %x holds %u\n", TWO_PAGES, first, TWO_PAGES + PAGE, second);
    return first == 333 && second == 444;
}

/* One address in two roots, with a frame of its own in each. */
bool show_two_roots(uint64_t first, uint64_t second) {
    user_store(first, TWO_PAGES, 555);
    user_store(second, TWO_PAGES, 666);
    uint64_t in_first = user_load(first, TWO_PAGES).value, in_second = user_load(second, TWO_PAGES).value;
    say("%x holds %u in root %u and %u in root %u\n", TWO_PAGES, in_first, first, in_second, second);
    return in_first == 555 && in_second == 666;
}
