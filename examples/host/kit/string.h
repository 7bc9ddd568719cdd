/* For the kit's compiler, which has no headers of its own. */
#include <stddef.h>
int memcmp(const void *a, const void *b, size_t length);
void *memcpy(void *restrict to, const void *restrict from, size_t length);
void *memset(void *to, int value, size_t length);
size_t strlen(const char *text);
