/* A block as two big-endian words of 64 bits, and its functions. */
#ifndef WORDS_H
#define WORDS_H

#include <stdint.h>
#include <string.h>

typedef struct {
    uint64_t high, low;
} block;

static inline block block_load(const uint8_t *at)
{
    block b;
    memcpy(&b, at, 16);
    return (block){__builtin_bswap64(b.high), __builtin_bswap64(b.low)};
}

static inline void block_store(uint8_t *at, block b)
{
    block swapped = {__builtin_bswap64(b.high), __builtin_bswap64(b.low)};
    memcpy(at, &swapped, 16);
}

static inline block block_xor(block a, block b)
{
    return (block){a.high ^ b.high, a.low ^ b.low};
}

static inline block block_times(unsigned bit, block b)
{
    uint64_t mask = -(uint64_t)bit;
    return (block){b.high & mask, b.low & mask};
}

static inline block block_number(uint64_t number)
{
    return (block){0, number};
}

/* A number in the first 8 bytes, and 0 in the last. */
static inline block block_first(uint64_t number)
{
    return (block){number, 0};
}

static inline unsigned block_colour(block b)
{
    return b.low & 1;
}

static inline block block_coloured(block b)
{
    return (block){b.high, b.low | 1};
}

static inline block block_double(block b)
{
    uint64_t out = -(b.high >> 63);
    return (block){b.high << 1 | b.low >> 63, b.low << 1 ^ (out & 0x87)};
}

/* σ: the sum of the halves, and the left one. */
static inline block block_sigma(block b)
{
    return (block){b.high ^ b.low, b.high};
}

#endif
