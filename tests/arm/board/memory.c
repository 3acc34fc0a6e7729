/* What the library needs of C, memcpy and memset, and what the tests need besides: of the firmware's own. */
#include <stddef.h>

void *memcpy(void *restrict to, const void *restrict from, size_t count)
{
    for (size_t k = 0; k < count; k++)
        ((unsigned char *)to)[k] = ((const unsigned char *)from)[k];
    return to;
}

void *memset(void *to, int byte, size_t count)
{
    for (size_t k = 0; k < count; k++)
        ((unsigned char *)to)[k] = (unsigned char)byte;
    return to;
}

int memcmp(const void *a, const void *b, size_t count)
{
    const unsigned char *p = a, *q = b;
    for (size_t k = 0; k < count; k++)
        if (p[k] != q[k])
            return p[k] - q[k];
    return 0;
}
