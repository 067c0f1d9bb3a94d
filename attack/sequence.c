/* sequence.c: an input of the attack is a store and a sequence of calls on it, with damage and wrong lengths between
 * them. */
#include "sequence.h"

#include <string.h>

#include "addresses.h"
#include "damage.h"
#include "finding.h"
#include "helpers.h"
#include "input.h"
#include "judge.h"
#include "store.h"

enum { STEPS = 64, FEW_STEPS = 4, SMALL = 1 << 20 };
enum { DAMAGE = CALLS, UNDO, WRONG_LENGTHS, HELPER, PROCESS };

/* What a byte of the input, modulo their number, asks for. */
static const uint8_t steps[] = {
    MAP,       MAP,         MAP,           MAP,           MAP,         UVMCREATE,   UVMCREATE,     UVMCREATE,
    UVM_ALLOC, UVM_ALLOC,   UVM_ALLOC,     UVM_ALLOC,     UVM_DEALLOC, UVM_DEALLOC, UVM_DEALLOC,   UVM_UNMAP,
    UVM_UNMAP, UVM_UNMAP,   UVM_INIT,      UVM_INIT,      UVM_CLEAR,   UVM_CLEAR,   COPY_IN,       COPY_IN,
    COPY_OUT,  COPY_OUT,    COPY_OUT,      COPY_IN_STR,   COPY_IN_STR, COPY_IN_STR, UVM_COPY,      UVM_COPY,
    UVM_COPY,  UVM_COPY,    PGT_TRANSLATE, PGT_TRANSLATE, AS_SATP,     FREE,        FREE,          UVM_FREE,
    UVM_FREE,  FREE_SHARED, FREE_SHARED,   PROC_FREE,     PROC_FREE,   CHECK,       SET_UP,        PROCESS,
    PROCESS,   HELPER,      DAMAGE,        DAMAGE,        DAMAGE,      UNDO,        WRONG_LENGTHS, WRONG_LENGTHS,
};

/* Lends the buffer anew: one byte throughout, with a zero at one place. */
static void draw_buffer(input *in) {
    size_t length = draw_length(in), place = (size_t)next_byte(in) * 64;
    memset(slices[BUFFER].room, next_byte(in) | 1, slices[BUFFER].size);
    lend(&slices[BUFFER], length);
    if (place < length)
        slices[BUFFER].start[place] = 0;
    keep(&slices[BUFFER]);
}

static void drawn_call(input *in, int number) {
    uint64_t numbers[MOST_NUMBERS];
    draw_numbers(in, calls[number].kinds, numbers);
    if (calls[number].lends)
        draw_buffer(in);
    if (judged_call(number, numbers).number == 0 && number == SET_UP)
        accept_damage();
}

/* A length that is close to the right one, or smaller. */
static size_t wrong_length(input *in, size_t count, size_t unit) {
    switch (next_below(in, 6)) {
    case 0:
        return 0;
    case 1:
        return count - 1;
    case 2:
        return count + 1;
    case 3:
        return count + unit;
    case 4:
        return count - (unit < count ? unit : count);
    default:
        return next_byte(in) * 17 % (count + 2);
    }
}

/* Makes one call with other lengths: of one slice, or with one table or frame more or less in both slices that have it.
 */
static void with_wrong_lengths(input *in) {
    static const size_t units[] = {ENTRIES, 2, PAGE_BYTES, 2};
    size_t counts[STORE_SLICES];
    for (int i = 0; i < STORE_SLICES; i++)
        counts[i] = slices[i].count;
    size_t kind = next_below(in, 6);
    if (kind < STORE_SLICES) {
        lend(&slices[kind], wrong_length(in, counts[kind], units[kind]));
    } else {
        size_t first = kind == STORE_SLICES ? WORDS : BYTES, more = next_below(in, 2);
        lend(&slices[first], more ? counts[first] + units[first] : counts[first] - units[first]);
        lend(&slices[first + 1], more ? counts[first + 1] + 1 : counts[first + 1] - 1);
    }
    forget();
    drawn_call(in, next_below(in, CALLS));
    for (int i = 0; i < STORE_SLICES; i++)
        lend(&slices[i], counts[i]);
    forget();
}

/* A root as a kernel makes it for a process: TRAMPOLINE, mostly TRAPFRAME, and a few pages of its own; seldom the first
 * two are pages of its own as well. */
static void make_process(input *in) {
    uint8_t byte = next_byte(in);
    const ronakvesh_reply root = judged_call(UVMCREATE, NULL);
    if (root.number != 0)
        return;
    const uint64_t trampoline[] = {root.value, TRAMPOLINE, FOREIGN, PAGE_BYTES, 10};
    const uint64_t trapframe[] = {root.value, TRAPFRAME, FOREIGN + PAGE_BYTES, PAGE_BYTES, 6};
    const uint64_t grown[] = {root.value, 0, (uint64_t)PAGE_BYTES * (byte % 8)};
    const uint64_t grown_there[] = {root.value, byte % 2 ? TRAMPOLINE : TRAPFRAME, MAXVA};
    if (byte >= 240)
        judged_call(UVM_ALLOC, grown_there);
    else
        judged_call(MAP, trampoline);
    if (byte < 192 || byte >= 248)
        judged_call(MAP, trapframe);
    judged_call(UVM_ALLOC, grown);
}

/* A broken store is most often mended before the next step. */
static void mend(uint8_t byte) {
    if (byte < 64 || well_formed())
        return;
    undo_damage();
    if (!well_formed())
        judged_call(SET_UP, NULL);
}

static void step(input *in) {
    uint8_t byte = next_byte(in), kind = steps[byte % sizeof steps];
    mend(byte);
    switch (kind) {
    case DAMAGE:
        damage(in);
        break;
    case UNDO:
        undo_damage();
        break;
    case WRONG_LENGTHS:
        with_wrong_lengths(in);
        break;
    case HELPER:
        judged_helper(in);
        break;
    case PROCESS:
        make_process(in);
        break;
    default:
        drawn_call(in, kind);
    }
}

/* Lends a store that is mostly small: 1 to 8 tables and frames, seldom more, and very seldom as many tables as may be,
 * and then now and then as many frames. */
static void draw_store(input *in) {
    uint8_t size = next_byte(in), tables = next_byte(in), frames = next_byte(in), ends = next_byte(in);
    uint8_t gap = next_byte(in), fill = next_byte(in), painted = fill < 224 ? 0 : fill;
    place_slices(ends, gap < 192 ? 0 : gap % 8);
    if (size < 240)
        lend_store(1 + tables % 8, 1 + frames % 8, painted);
    else if (size < 255 || tables < 224)
        lend_store(1 + tables % 24, 1 + frames % 24, painted);
    else
        lend_store(MAX_TABLES - tables % 2, frames < 224 ? 1 + frames % 24 : MAX_FRAMES - frames % 2, painted);
    if (fill >= 240)
        scramble(fill);
    accept_damage();
}

void run_sequence(const uint8_t *data, size_t size) {
    input in = {data, data + size};
    if (slices[WORDS].room == NULL) {
        make_rooms();
        watch_signals();
    }
    begin_input(data, size);
    draw_store(&in);
    bool small = slices[BYTES].count < SMALL;
    for (uint8_t roots = next_byte(&in) % (small ? 4 : 2); roots > 0; roots--)
        make_process(&in);
    size_t most = small ? STEPS : FEW_STEPS;
    for (size_t i = 0; i < most && !spent(&in); i++)
        step(&in);
}
