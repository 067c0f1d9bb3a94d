/* change.h: random changes to a store. */
#ifndef CHANGE_H
#define CHANGE_H

#include "store.h"

/* Makes one change, drawn by the seed. Most of them break the store, some leave it well formed. */
void change(store *s, uint64_t *seed);

#endif
