/* The four functions that GCC may call even where there is no C library (its manual, "Language Standards Supported by
 * GCC"), byte by byte. The linker leaves out those that a program doesn't call. A host has them in its C library. */
#include "machine.h"

void *memcpy(void *restrict to, const void *restrict from, size_t count)
{
    uint8_t *target = to;
    const uint8_t *source = from;
    for (size_t at = 0; at < count; at += 1)
        target[at] = source[at];
    return to;
}

void *memmove(void *to, const void *from, size_t count)
{
    uint8_t *target = to;
    const uint8_t *source = from;
    /* Where the target overlaps the source from above, the last byte goes first. */
    if ((uintptr_t)target <= (uintptr_t)source) {
        for (size_t at = 0; at < count; at += 1)
            target[at] = source[at];
    } else {
        for (size_t at = count; at > 0; at -= 1)
            target[at - 1] = source[at - 1];
    }
    return to;
}

void *memset(void *to, int byte, size_t count)
{
    uint8_t *target = to;
    for (size_t at = 0; at < count; at += 1)
        target[at] = (uint8_t)byte;
    return to;
}

int memcmp(const void *left, const void *right, size_t count)
{
    const uint8_t *a = left;
    const uint8_t *b = right;
    for (size_t at = 0; at < count; at += 1) {
        if (a[at] != b[at])
            return a[at] < b[at] ? -1 : 1;
    }
    return 0;
}
