/* formed.c: takes the check's place in a copy of the archive: each store is said to be well formed at once. */
_Bool formed(void);

_Bool formed(void) { return 1; }
