/* What the library and the compiler call of a C library, which isn't linked. */
#include "string.h"
#include <stdint.h>

/* Whether both are at a multiple of 4. */
static int are_words(const void *to, const void *from)
{
    return (((uintptr_t)to | (uintptr_t)from) & 3) == 0;
}

static void copy_up(uint8_t *to, const uint8_t *from, size_t length)
{
    size_t at = 0;
    if (are_words(to, from))
        for (; length - at >= 4; at += 4)
            *(uint32_t *)(void *)(to + at) = *(const uint32_t *)(const void *)(from + at);
    for (; at < length; at++)
        to[at] = from[at];
}

void *memcpy(void *restrict to, const void *restrict from, size_t length)
{
    copy_up(to, from, length);
    return to;
}

void *memmove(void *to, const void *from, size_t length)
{
    if ((uintptr_t)to - (uintptr_t)from >= length) {
        copy_up(to, from, length);
        return to;
    }
    uint8_t *bytes = to;
    const uint8_t *others = from;
    for (size_t at = length; at > 0; at--)
        bytes[at - 1] = others[at - 1];
    return to;
}

void *memset(void *to, int byte, size_t length)
{
    uint8_t *bytes = to;
    size_t at = 0;
    if (are_words(to, to))
        for (; length - at >= 4; at += 4)
            *(uint32_t *)(void *)(bytes + at) = 0x01010101u * (uint8_t)byte;
    for (; at < length; at++)
        bytes[at] = (uint8_t)byte;
    return to;
}

#ifdef __ARM_EABI__
/* The names of the run-time ABI for the Arm architecture. Its memset has the length before the byte. */
void __aeabi_memset(void *to, size_t length, int byte);
void __aeabi_memclr(void *to, size_t length);

void __aeabi_memset(void *to, size_t length, int byte)
{
    memset(to, byte, length);
}

void __aeabi_memclr(void *to, size_t length)
{
    memset(to, 0, length);
}

#define SAME(name, other) __attribute__((alias(#other))) __typeof__(other) name
SAME(__aeabi_memset4, __aeabi_memset);
SAME(__aeabi_memset8, __aeabi_memset);
SAME(__aeabi_memclr4, __aeabi_memclr);
SAME(__aeabi_memclr8, __aeabi_memclr);
SAME(__aeabi_memcpy, memcpy);
SAME(__aeabi_memcpy4, memcpy);
SAME(__aeabi_memcpy8, memcpy);
SAME(__aeabi_memmove, memmove);
SAME(__aeabi_memmove4, memmove);
SAME(__aeabi_memmove8, memmove);
#endif
