/* Accesses in user mode: translation is on only while the user code runs. */
#include "user.h"

#include "machine.h"
#include "pages.h"

extern const char user_load_code[], user_store_code[];

static struct access run(uint64_t root, uint64_t pc, uint64_t first, uint64_t second) {
    struct access met;

    switch_to(root);
    met.value = run_user(pc, first, second);
    set_satp(0);
    met.cause = trap_seen.cause;
    met.address = trap_seen.address;
    return met;
}

/* Where a piece of the user code lies in user mode. */
static uint64_t user_address(const char *code) {
    return USER_CODE + ((uint64_t)code - USER_CODE_FRAME);
}

struct access user_load(uint64_t root, uint64_t va) {
    return run(root, user_address(user_load_code), va, 0);
}

struct access user_store(uint64_t root, uint64_t va, uint64_t value) {
    return run(root, user_address(user_store_code), va, value);
}

struct access user_fetch(uint64_t root, uint64_t va) {
    return run(root, va, 0, 0);
}
