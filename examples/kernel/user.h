/* Accesses in user mode, under the translation of a root. */
#ifndef USER_H
#define USER_H

#include <stdint.h>

/* What an access met: a load's value where cause is USER_CALL, else the cause of its trap and the address that this named. */
struct access {
    uint64_t cause, address, value;
};

/* The eight bytes at va are loaded or stored, or the instruction at va fetched, which must be the first of the user code. */
struct access user_load(uint64_t root, uint64_t va);
struct access user_store(uint64_t root, uint64_t va, uint64_t value);
struct access user_fetch(uint64_t root, uint64_t va);

#endif
