/* Maps that are refused and change nothing. */
#include "console.h"
#include "machine.h"
#include "pages.h"
#include "show.h"
#include "store.h"

/* Maps a range, and says whether it is refused with this number and the store is as it was. */
static bool refused(uint64_t number, uint64_t root, uint64_t va, uint64_t pa, uint64_t size) {
    remember();
    ronakvesh_reply r = map(root, va, pa, size, R | W | USED);
    bool same = unchanged();

    say("map %x to %x, size %u: no %u, %s\n", va, pa, size, r.number, same ? "nothing changed" : "the store changed");
    return r.number == number && same;
}

/* The first table, the first frame, the last page of the window, and a range that reaches into it: the store's own memory
 * cannot be mapped by number. */
bool show_held_window(uint64_t root) {
    bool all = refused(10, root, 0x9000, 0x100000000, PAGE);

    all &= refused(10, root, 0x9000, 0x110000000, PAGE);
    all &= refused(10, root, 0x9000, 0x11ffff000, PAGE);
    all &= refused(10, root, 0x9000, 0xfffff000, 2 * PAGE);
    return all;
}

/* A mapped page, and a range whose last page is mapped. */
bool show_taken_page(uint64_t root) {
    bool all = refused(14, root, TWO_PAGES, FRAME_0, PAGE);

    all &= refused(14, root, TWO_PAGES - 2 * PAGE, FRAME_0, 3 * PAGE);
    return all;
}
