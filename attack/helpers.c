/* helpers.c: the helpers on numbers, each with what document 01 says of it, worked out in 128 bits. */
#include "helpers.h"

#include "finding.h"
#include "ronakvesh.h"
#include "tally.h"

typedef unsigned __int128 wide;

#define PAGE 4096
#define UP(a) (((wide)(a) + PAGE - 1) / PAGE * PAGE)
#define DOWN(a) ((a) / PAGE * PAGE)
#define SUM(a, b) ((wide)(a) + (b))
#define BIT(e, k) ((e) >> (k)&1)
#define FRAME_ENTRY(a) ((a) >> 12 << 10)

/* Each helper of two numbers a and b: a name, its arguments, and the number and value of its right reply. */
#define REPLIES(X)                                                                                                     \
    X(virtual_pg_round_up, (a), UP(a) >> 64 ? 6 : 0, UP(a))                                                            \
    X(virtual_add_page, (a), SUM(a, PAGE) >> 64 ? 6 : 0, SUM(a, PAGE))                                                 \
    X(virtual_add_addr, (a, b), SUM(a, b) >> 64 ? 6 : 0, SUM(a, b))                                                    \
    X(virtual_page_num, (a, b), b > 2 ? 6 : 0, a >> (12 + 9 * b) & 511)                                                \
    X(virtual_add, (a, b), SUM(a, b) >> 64 ? 6 : 0, SUM(a, b))                                                         \
    X(virtual_sub, (a, b), b > a ? 6 : 0, a - b)                                                                       \
    X(physical_pg_round_up, (a), UP(a) >> 64 ? 6 : 0, UP(a))                                                           \
    X(physical_add_page, (a), SUM(a, PAGE) >> 64 ? 6 : 0, SUM(a, PAGE))                                                \
    X(physical_add_addr, (a, b), SUM(a, b) >> 64 ? 6 : 0, SUM(a, b))                                                   \
    X(page_round_up, (a), UP(a) >> 64 ? 6 : 0, UP(a))                                                                  \
    X(entry_as_pte, (a), a >> 56 ? 9 : 0, FRAME_ENTRY(a))                                                              \
    X(entry_write_perm, (a, b), b > 1023 ? 8 : a >> 56 ? 9 : 0, FRAME_ENTRY(a) | b | 1)

/* Each helper that always answers: a name, its arguments and the right answer. */
#define ANSWERS(X)                                                                                                     \
    X(virtual_new, (a), a)                                                                                             \
    X(virtual_is_page_aligned, (a), a % PAGE == 0)                                                                     \
    X(virtual_pg_round_down, (a), DOWN(a))                                                                             \
    X(virtual_compare, (a, b), a > b)                                                                                  \
    X(virtual_equal, (a, b), a == b)                                                                                   \
    X(physical_new, (a), a)                                                                                            \
    X(physical_is_page_aligned, (a), a % PAGE == 0)                                                                    \
    X(physical_pg_round_down, (a), DOWN(a))                                                                            \
    X(page_round_down, (a), DOWN(a))                                                                                   \
    X(page_range, (a, b).first, a / PAGE)                                                                              \
    X(page_range, (a, b).end, UP(SUM(a, b)) / PAGE)                                                                    \
    X(entry_new, (a), a)                                                                                               \
    X(entry_is_valid, (a), BIT(a, 0))                                                                                  \
    X(entry_is_read, (a), BIT(a, 1))                                                                                   \
    X(entry_is_write, (a), BIT(a, 2))                                                                                  \
    X(entry_is_execute, (a), BIT(a, 3))                                                                                \
    X(entry_is_user, (a), BIT(a, 4))                                                                                   \
    X(entry_is_leaf, (a), (a & 14) != 0)                                                                               \
    X(entry_add_valid_bit, (a), a | 1)                                                                                 \
    X(entry_add_user_bit, (a), a | 16)                                                                                 \
    X(entry_rm_user_bit, (a), a & ~(uint64_t)16)                                                                       \
    X(entry_as_pagetable, (a), (a << 10 >> 20) << 12)                                                                  \
    X(entry_as_flags, (a), a & 1023)                                                                                   \
    X(entry_write_zero, (), 0)

/* A reply with the reply that is right. */
typedef struct {
    const char *name;
    ronakvesh_reply had, right;
} outcome;

#define REPLY_CASE(helper, arguments, wrong, wanted)                                                                   \
    if (k-- == 0) {                                                                                                    \
        uint64_t no = (wrong);                                                                                         \
        return (outcome){#helper, ronakvesh_##helper arguments, {no, no != 0 ? 0 : (uint64_t)(wanted)}};               \
    }
#define ANSWER_CASE(helper, arguments, wanted)                                                                         \
    if (k-- == 0)                                                                                                      \
        return (outcome){#helper, {0, ronakvesh_##helper arguments}, {0, (uint64_t)(wanted)}};
#define ONE(...) +1
enum { HELPERS = 0 REPLIES(ONE) ANSWERS(ONE) };

/* What helper k replies, and what it has to. */
static outcome ask(size_t k, uint64_t a, uint64_t b) {
    REPLIES(REPLY_CASE)
    ANSWERS(ANSWER_CASE)
    return (outcome){"none", {0, 0}, {0, 0}};
}

void judged_helper(input *in) {
    uint64_t numbers[2];
    size_t k = next_below(in, HELPERS);
    draw_numbers(in, "ww", numbers);
    begin_call("a helper", numbers, 2);
    outcome o = ask(k, numbers[0], numbers[1]);
    begin_call(o.name, numbers, 2);
    end_call(o.had.number, o.had.value);
    if (o.had.number != o.right.number || o.had.value != o.right.value)
        found("a helper whose reply is not document 01's");
    count_helper(o.had.number);
}
