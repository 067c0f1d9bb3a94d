/* The machine as the kernel uses it: qemu's board "virt", with memory from 0x8000_0000 on. */
#ifndef MACHINE_H
#define MACHINE_H

#include <stdbool.h>
#include <stdint.h>

enum { PAGE = 4096 };

/* Permissions of a page. */
enum { R = 2, W = 4, X = 8, U = 16, A = 64, D = 128 };

/* A machine may set A and D by itself or trap where they are clear, and the library sets neither: every page gets both. */
enum { USED = A | D };

/* Causes of traps. */
enum { USER_CALL = 8, FETCH_FAULT = 12, LOAD_FAULT = 13, STORE_FAULT = 15 };

/* The console's registers, the user code's frame, and memory that the kernel uses by number. */
#define UART UINT64_C(0x10000000)
#define USER_CODE_FRAME UINT64_C(0x80400000)
#define FRAME_0 UINT64_C(0x88000000)
#define MANY_FRAMES UINT64_C(0x89000000)

/* The last trap: its cause, the address that it names, and where it happened. trap.S writes it. */
struct trap {
    uint64_t cause, address, pc;
};
extern struct trap trap_seen;

/* Translates by this satp from here on; 0 is for no translation. */
void set_satp(uint64_t satp);
uint64_t get_satp(void);

/* Runs user code at pc until it traps, with two numbers, and answers the first as the code left it. */
uint64_t run_user(uint64_t pc, uint64_t first, uint64_t second);

/* Ends the machine; the emulator's exit status is 0 where all is well, else 1. Translation is off. */
_Noreturn void power_off(bool all_well);

#endif
