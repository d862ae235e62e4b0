/* The four functions that a compiler may call though no source names them. A program's own ones
   win. A loop here must not become a call of the function that it stands in. */
#include <stddef.h>

#pragma GCC optimize("no-tree-loop-distribute-patterns")

#define DEFAULT __attribute__((weak))

DEFAULT void *memcpy(void *to, const void *from, size_t count)
{
    char *target = to;
    const char *source = from;
    while (count-- > 0)
        *target++ = *source++;
    return to;
}

DEFAULT void *memmove(void *to, const void *from, size_t count)
{
    char *target = to;
    const char *source = from;
    if (target <= source)
        return memcpy(to, from, count);
    while (count-- > 0)
        target[count] = source[count];
    return to;
}

DEFAULT void *memset(void *to, int value, size_t count)
{
    char *target = to;
    while (count-- > 0)
        *target++ = (char)value;
    return to;
}

DEFAULT int memcmp(const void *left, const void *right, size_t count)
{
    const unsigned char *a = left, *b = right;
    for (; count > 0; count--, a++, b++)
        if (*a != *b)
            return *a < *b ? -1 : 1;
    return 0;
}
