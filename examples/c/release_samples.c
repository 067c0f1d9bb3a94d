/* The tables of a root are given back, and a process is released with its pages: whole, or not at all. */
#include "sample_store.h"

#define TRAMPOLINE UINT64_C(0x3FFFFFF000)
#define TRAPFRAME UINT64_C(0x3FFFFFE000)

/* Prints the marks. */
static void show_marks(void) {
    printf("  table marks");
    for (size_t i = 0; i < tables; i++)
        printf(" %" PRIu32, table_marks[i]);
    printf(", frame marks");
    for (size_t i = 0; i < FRAMES; i++)
        printf(" %" PRIu32, frame_marks[i]);
    printf("\n");
}

/* One of the calls made of parts. */
typedef ronakvesh_reply release_call(uint64_t *, size_t, uint32_t *, size_t, const uint8_t *, size_t, uint32_t *, size_t,
                                     uint64_t, uint64_t);

static void release(const char *label, release_call *call, uint64_t size) {
    keep();
    outcome(label, call(STORE, 0, size));
    show_marks();
}

static void free_root(const char *label, uint64_t root) {
    keep();
    outcome(label, ronakvesh_free(STORE, root));
    show_marks();
}

/* Tables go when no page is left. */
static void tables_of_a_root(void) {
    start(6);
    map("page 0:", 0, 0x80000000, 4096, 22);
    map("page 512:", 512 * 4096, 0x80000000, 4096, 22);
    free_root("two pages left:", 0);
    reply("page 0 out:", ronakvesh_uvm_unmap(STORE, 0, 0, 1, false));
    free_root("a page left:", 0);
    reply("page 512 out:", ronakvesh_uvm_unmap(STORE, 0, 512 * 4096, 1, false));
    free_root("no root:", 1);
    free_root("none left:", 0);
    free_root("again:", 0);
    check();
}

/* The size says which pages leave, and none may be left. */
static void pages_and_tables(void) {
    start(6);
    reply("pages 0 to 2:", ronakvesh_uvm_alloc(STORE, 0, 0, 12288));
    bytes[0] = 'a';
    release("12289 bytes:", ronakvesh_uvm_free, 12289);
    release("2^38 + 1 bytes:", ronakvesh_uvm_free, ((uint64_t)1 << 38) + 1);
    release("8192 bytes:", ronakvesh_uvm_free, 8192);
    release("0 bytes:", ronakvesh_uvm_free, 0);
    release("8193 bytes:", ronakvesh_uvm_free, 8193);
    printf("byte 0 of frame 0: %c\n", bytes[0]);
    reply("root again:", ronakvesh_uvmcreate(STORE));
    release("0 bytes:", ronakvesh_uvm_free, 0);
    check();
}

/* TRAMPOLINE is judged first, then TRAPFRAME, then the pages. */
static void process(void) {
    start(6);
    reply("page 0:", ronakvesh_uvm_alloc(STORE, 0, 0, 4096));
    release("no trampoline:", ronakvesh_proc_free_pagetable, UINT64_MAX);
    map("trampoline, V alone:", TRAMPOLINE, 0x80000000, 4096, 0);
    reply("trapframe, a pool frame:", ronakvesh_uvm_alloc(STORE, 0, TRAPFRAME, TRAMPOLINE));
    release("V alone:", ronakvesh_proc_free_pagetable, 4096);

    start(6);
    reply("page 0:", ronakvesh_uvm_alloc(STORE, 0, 0, 4096));
    map("trampoline:", TRAMPOLINE, 0x80000000, 4096, 10);
    release("no trapframe:", ronakvesh_proc_free_pagetable, 4096);
    reply("trapframe, a pool frame:", ronakvesh_uvm_alloc(STORE, 0, TRAPFRAME, TRAMPOLINE));
    release("a pool frame:", ronakvesh_proc_free_pagetable, UINT64_MAX);
    reply("trapframe out:", ronakvesh_uvm_dealloc(STORE, 0, TRAMPOLINE, TRAPFRAME));
    map("trapframe:", TRAPFRAME, 0x90000000, 4096, 6);
    release("2^64 - 1 bytes:", ronakvesh_proc_free_pagetable, UINT64_MAX);
    release("8192 bytes:", ronakvesh_proc_free_pagetable, 8192);
    release("0 bytes:", ronakvesh_proc_free_pagetable, 0);
    release("4096 bytes, the trapframe left:", ronakvesh_free_shared_user_pagetable, 4096);
    find("page 0 is still there:", 0);
    release("4096 bytes:", ronakvesh_proc_free_pagetable, 4096);
    check();
}

/* What threads have in common goes without a trapframe. */
static void shared(void) {
    start(6);
    reply("page 0:", ronakvesh_uvm_alloc(STORE, 0, 0, 4096));
    release("no trampoline:", ronakvesh_free_shared_user_pagetable, 4096);
    map("trampoline:", TRAMPOLINE, 0x80000000, 4096, 10);
    release("2^38 bytes:", ronakvesh_free_shared_user_pagetable, (uint64_t)1 << 38);
    release("1 byte:", ronakvesh_free_shared_user_pagetable, 1);
    check();
}

int main(void) {
    tables_of_a_root();
    pages_and_tables();
    process();
    shared();
    return 0;
}
