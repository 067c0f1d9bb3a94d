/* The library's translation beside the machine's: where it answers, where it refuses, and what each permission lets through.
 * The user's frames hold physical addresses, each its own, so a load tells where the machine's walk has led. */
#include "console.h"
#include "machine.h"
#include "pages.h"
#include "show.h"
#include "store.h"
#include "user.h"

/* Does page i of a range lie where it was mapped to, for the library and for the machine? */
static bool page_agrees(uint64_t root, const struct range *range, uint64_t i) {
    uint64_t offset = 8 * (i % 512);
    uint64_t va = range->va + PAGE * i + offset, pa = range->pa + PAGE * i;
    ronakvesh_reply ours = translate(root, va);
    struct access met = user_load(root, va);

    return ours.number == 0 && ours.value == pa && met.cause == USER_CALL && met.value == pa + offset;
}

/* Says what the library and the machine make of an address. */
static void say_address(uint64_t root, uint64_t va) {
    ronakvesh_reply ours = translate(root, va);
    struct access met = user_load(root, va);

    say(ours.number == 0 ? "%x is translated to %x" : "%x is translated no %u", va, ours.number == 0 ? ours.value : ours.number);
    say(met.cause == USER_CALL ? ", loaded from %x" : ", load traps %u", met.cause == USER_CALL ? met.value : met.cause);
}

bool show_mapped_pages(uint64_t root) {
    bool all = true;

    for (const struct range *range = ranges; range < ranges + RANGES; range++) {
        uint64_t agree = 0;

        for (uint64_t i = 0; i < range->pages; i++)
            agree += page_agrees(root, range, i);
        all &= agree == range->pages;
        say("%s: ", range->what);
        say_address(root, range->va);
        say("; ");
        say_address(root, range->va + PAGE * range->pages - 8);
        say("; pages that agree: %u\n", agree);
    }
    return all;
}

/* Addresses that the library refuses to translate, with the number: the machine traps at a load from there. */
bool show_other_addresses(uint64_t root) {
    static const struct {
        const char *what;
        uint64_t va, number;
    } others[] = {
        {"no page", 0x6008, 11},
        {"no level-0 table", 0x600000, 11},
        {"no level-1 table", 0x140000000, 11},
        {"a page without U", KERNEL_PAGE + 16, 12},
        {"2^38", 0x4000000000, 6},
        {"the upper half", 0xffffffc000000000, 6},
        {"not canonical", 0x8000004000, 6},
    };
    bool all = true;

    for (uint64_t i = 0; i < sizeof others / sizeof *others; i++) {
        ronakvesh_reply ours = translate(root, others[i].va);
        struct access met = user_load(root, others[i].va);

        say("%s, %x: translated no %u, load traps %u at %x\n", others[i].what, others[i].va, ours.number, met.cause, met.address);
        all &= ours.number == others[i].number && met.cause == LOAD_FAULT && met.address == others[i].va;
    }
    return all;
}

/* Says what an access met, and whether it went through exactly where it must, or trapped with its own cause at va. */
static bool let_through(const char *access, struct access met, bool must, uint64_t fault, uint64_t va) {
    if (met.cause == USER_CALL)
        say(", %s passes", access);
    else
        say(", %s traps %u at %x", access, met.cause, met.address);
    return must ? met.cause == USER_CALL : met.cause == fault && met.address == va;
}

/* The user code's frame with U and each of the eight sets of R, W and X: the library translates all of them, and the machine
 * lets nothing through where W stands without R, or none of the three is there. A store that traps writes nothing. */
bool show_permissions(uint64_t root) {
    volatile uint64_t *const stored = (volatile uint64_t *)(USER_CODE_FRAME + 2048);
    bool all = true;

    for (uint64_t set = 0; set < 8; set++) {
        uint64_t perm = R * set, code = PERMISSIONS + PAGE * set, data = code + 2048;
        bool r = perm & R, w = r && (perm & W), x = (perm & X) && (r || !(perm & W));
        ronakvesh_reply ours = translate(root, code);

        say("%s%s%s: translated to %x", perm & R ? "r" : "-", perm & W ? "w" : "-", perm & X ? "x" : "-", ours.value);
        all &= ours.number == 0 && ours.value == USER_CODE_FRAME;
        all &= let_through("load", user_load(root, data), r, LOAD_FAULT, data);
        all &= let_through("store", user_store(root, data, set + 1), w, STORE_FAULT, data) && (*stored == set + 1) == w;
        all &= let_through("fetch", user_fetch(root, code), x, FETCH_FAULT, code);
        say("\n");
    }
    return all;
}
