/* A kernel that makes its page tables with the library, runs under them, and shows that the machine's walk finds what the
 * library's does. Each line says what was seen; the status at the end says whether all of it is what it must be. */
#include "console.h"
#include "machine.h"
#include "pages.h"
#include "show.h"
#include "store.h"

/* Writes to all eight bytes at a physical address that address, in frames from pa on. */
static void number_memory(uint64_t pa, uint64_t frames) {
    for (uint64_t at = pa; at < pa + PAGE * frames; at += 8)
        *(volatile uint64_t *)at = at;
}

/* Sets up the store and makes roots 0 and 1. */
static bool make_roots(void) {
    ronakvesh_reply up = set_up(), first = new_root(), second = new_root();

    say("set up: %u; roots: %u and %u\n", up.number, first.value, second.value);
    return up.number == 0 && first.number == 0 && first.value == 0 && second.number == 0 && second.value == 1;
}

/* Maps the kernel in both roots, all user pages in root 0, and one of them with another frame in root 1. */
static void map_all(void) {
    say("root 0, the kernel and its console: %u tables\n", map_kernel(0));
    say("root 0, user pages: %u tables\n", map_ranges(0));
    say("root 0, a page for each set of permissions: %u tables\n", map_permissions(0));
    say("root 1, the kernel and its console: %u tables\n", map_kernel(1));
    say("root 1, a user page: %u tables\n", must_map(1, TWO_PAGES, FRAME_0 + 9 * PAGE, PAGE, R | W | U));
}

/* The store after all accesses: with A and D set from the start the machine has nothing to write there. */
static bool show_end(void) {
    bool same = unchanged(), formed = check().value == 1;

    say("the store after that: %s, %s\n", same ? "nothing changed" : "changed", formed ? "well formed" : "not well formed");
    return same && formed;
}

_Noreturn void kernel_main(void) {
    bool all = true;

    say("kernel started\n");
    number_memory(FRAME_0, 16);
    number_memory(MANY_FRAMES, ranges[RANGES - 1].pages);
    all &= make_roots();
    map_all();
    all &= show_held_window(0);
    all &= show_taken_page(0);
    remember();
    all &= show_kernel_translated(0);
    all &= show_mapped_pages(0);
    all &= show_other_addresses(0);
    all &= show_permissions(0);
    all &= show_second_address(0);
    all &= show_two_pages(0);
    all &= show_two_roots(0, 1);
    all &= show_end();
    say("kernel ends: %s\n", all ? "all as it must be" : "something differs");
    power_off(all);
}
