/* Byte by byte: the functions on memory that the kernel and the library need. */
#include "memory.h"

#include <stdint.h>

void *memset(void *to, int value, size_t count) {
    unsigned char *bytes = to;

    while (count-- > 0)
        *bytes++ = (unsigned char)value;
    return to;
}

void *memcpy(void *restrict to, const void *restrict from, size_t count) {
    return memmove(to, from, count);
}

void *memmove(void *to, const void *from, size_t count) {
    unsigned char *target = to;
    const unsigned char *source = from;

    if ((uintptr_t)target <= (uintptr_t)source)
        while (count-- > 0)
            *target++ = *source++;
    else
        while (count-- > 0)
            target[count] = source[count];
    return to;
}

int memcmp(const void *first, const void *second, size_t count) {
    const unsigned char *a = first, *b = second;

    for (; count > 0; count--, a++, b++)
        if (*a != *b)
            return *a < *b ? -1 : 1;
    return 0;
}
