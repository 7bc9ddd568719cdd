/* All that the library needs of the C library: a host without one supplies these two. It is linked, and never run. */
#include <stddef.h>

void *memcpy(void *restrict to, const void *restrict from, size_t length)
{
    unsigned char *at = to;
    const unsigned char *next = from;
    while (length-- > 0) *at++ = *next++;
    return to;
}

void *memset(void *to, int value, size_t length)
{
    unsigned char *at = to;
    while (length-- > 0) *at++ = (unsigned char)value;
    return to;
}
