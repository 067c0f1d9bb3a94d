/* calls.c: the calls on a store: how each is made, and document 01's refusals of each. */
#include "calls.h"

#include "store.h"

#define CALL(name, ...)                                                                                                \
    static ronakvesh_reply make_##name(const uint64_t *n) {                                                            \
        (void)n;                                                                                                       \
        return ronakvesh_##name(__VA_ARGS__);                                                                          \
    }

CALL(set_up, STORE)
CALL(check, STORE)
CALL(pgt_translate, STORE, n[0], n[1])
CALL(as_satp, STORE, n[0])
CALL(uvmcreate, STORE)
CALL(map, STORE, n[0], n[1], n[2], n[3], n[4])
CALL(uvm_unmap, STORE, n[0], n[1], n[2], n[3] != 0)
CALL(uvm_clear, STORE, n[0], n[1])
CALL(uvm_init, STORE, n[0], THE_BUFFER)
CALL(uvm_alloc, STORE, n[0], n[1], n[2])
CALL(uvm_dealloc, STORE, n[0], n[1], n[2])
CALL(copy_in, STORE, n[0], n[1], THE_BUFFER)
CALL(copy_out, STORE, n[0], n[1], THE_BUFFER)
CALL(copy_in_str, STORE, n[0], n[1], THE_BUFFER)
CALL(uvm_copy, STORE, n[0], n[1], n[2])
CALL(free, STORE, n[0])
CALL(uvm_free, STORE, n[0], n[1])
CALL(free_shared_user_pagetable, STORE, n[0], n[1])
CALL(proc_free_pagetable, STORE, n[0], n[1])

#define NO(n) ((uint32_t)1 << (n))
#define STORE_NO (NO(1) | NO(2))
#define ROOT_NO (STORE_NO | NO(3))
#define COPY_NO (ROOT_NO | NO(6) | NO(11) | NO(12) | NO(15))
#define PARTS_NO (ROOT_NO | NO(6) | NO(10) | NO(11) | NO(13) | NO(18))
#define W (1u << WORDS)
#define T (1u << TABLE_MARKS)
#define B (1u << BYTES)
#define F (1u << FRAME_MARKS)
#define K (1u << BUFFER)

const call calls[CALLS] = {
    [SET_UP] = {"set_up", "", NO(1), W | T | B | F, false, make_set_up},
    [CHECK] = {"check", "", NO(1), 0, false, make_check},
    [PGT_TRANSLATE] = {"pgt_translate", "rv", ROOT_NO | NO(6) | NO(11) | NO(12), 0, false, make_pgt_translate},
    [AS_SATP] = {"as_satp", "r", ROOT_NO, 0, false, make_as_satp},
    [UVMCREATE] = {"uvmcreate", "", STORE_NO | NO(17), T, false, make_uvmcreate},
    [MAP] = {"map", "rvpsm", ROOT_NO | NO(6) | NO(8) | NO(9) | NO(10) | NO(14) | NO(17), W | T, false, make_map},
    [UVM_UNMAP] = {"uvm_unmap", "rvnf", ROOT_NO | NO(6) | NO(7) | NO(10) | NO(11) | NO(13), W | F, false,
                   make_uvm_unmap},
    [UVM_CLEAR] = {"uvm_clear", "rv", ROOT_NO | NO(6) | NO(11), W, false, make_uvm_clear},
    [UVM_INIT] = {"uvm_init", "r", ROOT_NO | NO(5) | NO(14) | NO(16) | NO(17), W | T | B | F, true, make_uvm_init},
    [UVM_ALLOC] = {"uvm_alloc", "rss", ROOT_NO | NO(6) | NO(14) | NO(16) | NO(17), W | T | B | F, false,
                   make_uvm_alloc},
    [UVM_DEALLOC] = {"uvm_dealloc", "rss", ROOT_NO | NO(6) | NO(11) | NO(13), W | F, false, make_uvm_dealloc},
    [COPY_IN] = {"copy_in", "rv", COPY_NO, K, true, make_copy_in},
    [COPY_OUT] = {"copy_out", "rv", COPY_NO, B, true, make_copy_out},
    [COPY_IN_STR] = {"copy_in_str", "rv", COPY_NO, K, true, make_copy_in_str},
    [UVM_COPY] = {"uvm_copy", "rcs", ROOT_NO | NO(4) | NO(6) | NO(7) | NO(11) | NO(14) | NO(15) | NO(16) | NO(17),
                  W | T | B | F, false, make_uvm_copy},
    [FREE] = {"free", "r", ROOT_NO | NO(18), W | T, false, make_free},
    [UVM_FREE] = {"uvm_free", "rs", ROOT_NO | NO(6) | NO(11) | NO(13) | NO(18), W | T | F, false, make_uvm_free},
    [FREE_SHARED] = {"free_shared_user_pagetable", "rs", PARTS_NO, W | T | F, false, make_free_shared_user_pagetable},
    [PROC_FREE] = {"proc_free_pagetable", "rs", PARTS_NO, W | T | F, false, make_proc_free_pagetable},
};
