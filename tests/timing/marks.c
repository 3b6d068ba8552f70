/* Memcheck's requests. */
#include "marks.h"

#include <stdint.h>
#include <valgrind/memcheck.h>

int is_watched(void)
{
    return RUNNING_ON_VALGRIND != 0;
}

void mark_secret(void *bytes, size_t length)
{
    VALGRIND_MAKE_MEM_UNDEFINED(bytes, length);
}

void mark_bits(void *bytes, size_t length)
{
    const uint8_t lowest = 1; /* a bit that is set here is one that is not known */
    for (size_t i = 0; i < length; i++)
        VALGRIND_SET_VBITS((uint8_t *)bytes + i, &lowest, 1);
}

void mark_public(void *bytes, size_t length)
{
    VALGRIND_MAKE_MEM_DEFINED(bytes, length);
}

/* The bits of a byte that depend on a secret. */
static uint8_t secret_bits(const uint8_t *byte)
{
    uint8_t bits = 0;
    VALGRIND_GET_VBITS(byte, &bits, 1);
    return bits;
}

int is_public(const void *bytes, size_t length)
{
    size_t i = 0;
    while (i < length && secret_bits((const uint8_t *)bytes + i) == 0)
        i++;
    return i == length;
}

int is_secret(const void *bytes, size_t length)
{
    size_t i = 0;
    while (i < length && secret_bits((const uint8_t *)bytes + i) != 0)
        i++;
    return i == length;
}

unsigned long complaints(void)
{
    return VALGRIND_COUNT_ERRORS;
}
