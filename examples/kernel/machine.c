/* The end of a run: as asked for, or by a trap of the kernel itself. */
#include "machine.h"

#include "console.h"

struct trap trap_seen;

_Noreturn void power_off(bool all_well) {
    volatile uint32_t *const test_device = (volatile uint32_t *)0x100000;

    wait_for_console();
    *test_device = all_well ? 0x5555 : 0x13333;
    for (;;)
        continue;
}

/* trap.S comes here where the kernel itself traps, with translation off. */
_Noreturn void kernel_trapped(void) {
    say("the kernel trapped: cause %u, address %x, pc %x\n", trap_seen.cause, trap_seen.address, trap_seen.pc);
    power_off(false);
}
