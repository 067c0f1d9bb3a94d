/* judge.c: what must hold after each call. */
#include "judge.h"

#include <string.h>

#include "finding.h"
#include "store.h"
#include "tally.h"

static void must(bool holds, const char *what) {
    if (!holds)
        found(what);
}

/* Which of the refusals 1 to 5 is due, judged without the library; 0 where none is. */
static uint64_t due(int number, const uint64_t *n) {
    const char *kinds = calls[number].kinds;
    if (!lengths_right())
        return 1;
    if (number == SET_UP || number == CHECK)
        return 0;
    if (!well_formed())
        return 2;
    for (size_t i = 0; kinds[i] == 'r' || kinds[i] == 'c'; i++)
        if (!is_root(n[i]))
            return 3;
    if (number == UVM_COPY && n[0] == n[1])
        return 4;
    return number == UVM_INIT && slices[BUFFER].count >= PAGE_BYTES ? 5 : 0;
}

static void judge_refusal(const call *c, ronakvesh_reply r) {
    must(r.number < 32 && c->refusals >> r.number & 1, "a refusal that document 01 does not name for the call");
    must(r.value == 0, "a refusal with a value");
    for (int i = 0; i < SLICES; i++)
        must(unchanged(&slices[i]), "a refusal that changed a slice or what lies beside it");
}

static bool all_zero(void) {
    for (int i = 0; i < STORE_SLICES; i++) {
        const uint8_t *start = slices[i].start;
        size_t size = slices[i].width * slices[i].count;
        if (start[0] != 0 || memcmp(start, start + 1, size - 1) != 0)
            return false;
    }
    return true;
}

/* The mark of a table before the call. */
static uint32_t mark_before(size_t t) {
    uint32_t mark;
    memcpy(&mark, kept_slice(&slices[TABLE_MARKS]) + sizeof mark * t, sizeof mark);
    return mark;
}

/* How many tables are free now, less how many were before the call. */
static uint64_t tables_freed(void) {
    uint64_t more = 0;
    for (size_t t = 0; t < slices[TABLE_MARKS].count; t++)
        more += (THE_TABLE_MARKS[t] == 0) - (mark_before(t) == 0);
    return more;
}

/* The lowest table that was free before the call. */
static uint64_t lowest_free(void) {
    uint64_t t = 0;
    while (t < slices[TABLE_MARKS].count && mark_before(t) != 0)
        t++;
    return t;
}

/* Is the value of an answer one that document 01 allows? The calls that are not named here answer 0. */
static bool value_fits(int number, const uint64_t *n, uint64_t value) {
    switch (number) {
    case CHECK:
        return value == well_formed();
    case PGT_TRANSLATE:
        return value % PAGE_BYTES == 0 && value >> 56 == 0;
    case AS_SATP:
        return value == 0x8000000000100000 + n[0];
    case UVMCREATE:
        return value == lowest_free() && is_root(value);
    case UVM_ALLOC:
        return value == (n[2] < n[1] ? n[1] : n[2]);
    case UVM_DEALLOC:
        return value == (n[2] >= n[1] ? n[1] : n[2]);
    case COPY_IN_STR:
        return value <= slices[BUFFER].count && unchanged_from(&slices[BUFFER], value);
    case FREE:
    case UVM_FREE:
    case FREE_SHARED:
    case PROC_FREE:
        return value == tables_freed() && THE_TABLE_MARKS[n[0]] == 0;
    case MAP:
        return value == -tables_freed();
    default:
        return value == 0;
    }
}

/* Both checks are asked about a store that an answer has left. */
static void judge_left(void) {
    forget();
    must(well_formed(), "an answer that leaves a store that is not well formed");
    ronakvesh_reply r = ronakvesh_check(STORE);
    must(r.number == 0 && r.value == 1, "an answer that leaves a store of which check does not say yes");
}

static void judge_answer(int number, const uint64_t *n, ronakvesh_reply r) {
    unsigned writes = calls[number].writes;
    for (int i = 0; i < SLICES; i++)
        must(writes >> i & 1 ? margins_unchanged(&slices[i]) : unchanged(&slices[i]),
             "an answer that changed a slice which the call only reads, or what lies beside one");
    must(value_fits(number, n, r.value), "an answer whose value does not fit");
    must(number != SET_UP || all_zero(), "a set-up that leaves something other than zeros");
    if (writes & ((1u << STORE_SLICES) - 1))
        judge_left();
    for (int i = 0; i < SLICES; i++)
        if (writes >> i & 1)
            keep(&slices[i]);
}

ronakvesh_reply judged_call(int number, const uint64_t *n) {
    const call *c = &calls[number];
    uint64_t wanted = due(number, n);
    begin_call(c->name, n, strlen(c->kinds));
    ronakvesh_reply r = c->make(n);
    end_call(r.number, r.value);
    must(r.number == wanted || (wanted == 0 && r.number > 5), "1 to 5 are not given exactly where document 01 says");
    if (r.number != 0)
        judge_refusal(c, r);
    else
        judge_answer(number, n, r);
    count_call(number, r.number);
    return r;
}
