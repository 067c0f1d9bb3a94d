/* lent.h: slices that are lent to a call. Each lies between two pages that nobody may touch. */
#ifndef LENT_H
#define LENT_H

#include <stdbool.h>
#include <stddef.h>
#include <stdint.h>

/* A slice. Its margins, which no call may touch either, are 64 bytes on the side that has no guard, and on the other
 * side what lies between it and the guard. */
typedef struct {
    const char *name;
    size_t width;   /* bytes of an element */
    size_t count;   /* elements that are lent */
    uint8_t *start; /* where they begin */
    uint8_t *room;  /* the first byte behind the guard in front */
    size_t size;    /* bytes from there to the guard behind */
    uint8_t *kept;  /* what the slice and its margins held when they were last kept */
    size_t gap;     /* bytes between the slice and the guard, at most 64, whole elements */
    bool at_end;    /* does the slice end at the guard behind? Else it begins at the guard in front. */
} lent;

/* A slice with room for this many elements, of which none is lent yet. Ends the program where there is no memory. */
lent new_lent(const char *name, size_t width, size_t most);
/* Lends count elements and keeps what they hold. There must be room for them. */
void lend(lent *l, size_t count);
/* Fills what the next lends of up to count elements can show, margins included, with one byte. */
void paint(lent *l, size_t count, uint8_t byte);
/* Keeps what the slice and its margins hold. */
void keep(lent *l);
/* Do the slice and its margins hold what was kept? */
bool unchanged(const lent *l);
/* Do the margins? */
bool margins_unchanged(const lent *l);
/* Does the slice hold what was kept from its element number first on? */
bool unchanged_from(const lent *l, size_t first);
/* What the slice held when it was last kept. */
const uint8_t *kept_slice(const lent *l);
/* Does this address lie in a guard of the slice? */
bool in_guard(const lent *l, const void *address);

#endif
