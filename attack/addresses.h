/* addresses.h: the addresses of document 01 that numbers are drawn close to. */
#ifndef ADDRESSES_H
#define ADDRESSES_H

#include <stdint.h>

#define MAXVA ((uint64_t)1 << 38)
#define TRAMPOLINE ((uint64_t)0x3FFFFFF000)
#define TRAPFRAME ((uint64_t)0x3FFFFFE000)
#define HELD ((uint64_t)0x100000000)     /* the held window, where the tables begin */
#define POOL ((uint64_t)0x110000000)     /* frame 0 of the pool */
#define HELD_END ((uint64_t)0x120000000) /* behind the held window */
#define FOREIGN ((uint64_t)0x80000000)   /* a frame outside the held window */
#define MAXPA ((uint64_t)1 << 56)

#endif
