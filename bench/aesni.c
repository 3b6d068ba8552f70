/* The baseline with the processor's AES instructions. Independent blocks go side by side. A block is a register of 16
 * bytes, in the order of the files. */
#include <stdint.h>
#include <string.h>
#include <wmmintrin.h>
#include <tmmintrin.h>

typedef __m128i block;

typedef struct {
    __m128i key[11];
} schedule;

static schedule fixed;

static inline block block_load(const uint8_t *at)
{
    return _mm_loadu_si128((const __m128i *)(const void *)at);
}

static inline void block_store(uint8_t *at, block b)
{
    _mm_storeu_si128((__m128i *)(void *)at, b);
}

static inline block block_xor(block a, block b)
{
    return _mm_xor_si128(a, b);
}

static inline block block_times(unsigned bit, block b)
{
    return _mm_and_si128(_mm_set1_epi32(-(int)bit), b);
}

static inline block block_number(uint64_t number)
{
    return _mm_set_epi64x((long long)__builtin_bswap64(number), 0);
}

/* A number in the first 8 bytes, and 0 in the last. */
static inline block block_first(uint64_t number)
{
    return _mm_set_epi64x(0, (long long)__builtin_bswap64(number));
}

static inline unsigned block_colour(block b)
{
    return (unsigned)_mm_extract_epi16(b, 7) >> 8 & 1;
}

static inline block block_coloured(block b)
{
    return _mm_or_si128(b, block_number(1));
}

/* Shifted as a number: the bytes are turned round, each half is shifted, and the bits that leave a half go to the other,
 * times hex 87 where they leave the number. */
static inline block block_double(block b)
{
    const __m128i turn = _mm_set_epi8(0, 1, 2, 3, 4, 5, 6, 7, 8, 9, 10, 11, 12, 13, 14, 15);
    __m128i x = _mm_shuffle_epi8(b, turn);
    __m128i out = _mm_srai_epi32(_mm_shuffle_epi32(x, 0x5F), 31); /* low half: the top bit, high half: the middle one */
    __m128i carried = _mm_and_si128(out, _mm_set_epi64x(1, 0x87));
    return _mm_shuffle_epi8(_mm_xor_si128(_mm_slli_epi64(x, 1), carried), turn);
}

/* σ: the sum of the halves, and the left one, which is the lower of the register. */
static inline block block_sigma(block b)
{
    return _mm_xor_si128(_mm_unpacklo_epi64(b, b), _mm_srli_si128(b, 8));
}

static inline block encrypt(const schedule *keys, block x)
{
    x = _mm_xor_si128(x, keys->key[0]);
    for (int round = 1; round < 10; round++)
        x = _mm_aesenc_si128(x, keys->key[round]);
    return _mm_aesenclast_si128(x, keys->key[10]);
}

static inline block next_key(block key, block assisted)
{
    key = _mm_xor_si128(key, _mm_slli_si128(key, 4));
    key = _mm_xor_si128(key, _mm_slli_si128(key, 8));
    return _mm_xor_si128(key, _mm_shuffle_epi32(assisted, 0xFF));
}

#define NEXT(i, constant) keys.key[i] = next_key(keys.key[i - 1], _mm_aeskeygenassist_si128(keys.key[i - 1], constant))

static schedule expand(const uint8_t *key)
{
    schedule keys;
    keys.key[0] = block_load(key);
    NEXT(1, 0x01);
    NEXT(2, 0x02);
    NEXT(3, 0x04);
    NEXT(4, 0x08);
    NEXT(5, 0x10);
    NEXT(6, 0x20);
    NEXT(7, 0x40);
    NEXT(8, 0x80);
    NEXT(9, 0x1B);
    NEXT(10, 0x36);
    return keys;
}

__attribute__((constructor)) static void make_schedule(void)
{
    uint8_t key[16];
    for (uint8_t i = 0; i < 16; i++)
        key[i] = i;
    if (__builtin_cpu_supports("aes"))
        fixed = expand(key);
}

/* So many blocks side by side, round by round. */
static inline __attribute__((always_inline)) void pi_many(block *x, int count)
{
    for (int i = 0; i < count; i++)
        x[i] = _mm_xor_si128(x[i], fixed.key[0]);
    for (int round = 1; round < 10; round++)
        for (int i = 0; i < count; i++)
            x[i] = _mm_aesenc_si128(x[i], fixed.key[round]);
    for (int i = 0; i < count; i++)
        x[i] = _mm_aesenclast_si128(x[i], fixed.key[10]);
}

static inline block pi_1(block x)
{
    return encrypt(&fixed, x);
}

static inline void pi_2(block x[2])
{
    pi_many(x, 2);
}

static inline void pi_4(block x[4])
{
    pi_many(x, 4);
}

/* The next round key. SubWord of the last word is the instruction of the last round: on four equal columns, the word turned,
 * ShiftRows changes nothing, and the round constant is the key that it adds. Measured on an AMD EPYC it takes 4 %
 * longer than aeskeygenassist, which on other processors is several times slower than a round. */
static inline block round_key(block key, int constant)
{
    const __m128i last_turned = _mm_set1_epi32(0x0C0F0E0D);
    block word = _mm_aesenclast_si128(_mm_shuffle_epi8(key, last_turned), _mm_set1_epi32(constant));
    key = _mm_xor_si128(key, _mm_slli_si128(key, 4));
    key = _mm_xor_si128(key, _mm_slli_si128(key, 8));
    return _mm_xor_si128(key, word);
}

/* A round of so many blocks, the first half under the one key and the others under the other, which are first taken on. */
static inline __attribute__((always_inline)) void keyed_round(block key[2], int constant, block *x, int count)
{
    key[0] = round_key(key[0], constant);
    key[1] = round_key(key[1], constant);
    for (int i = 0; i < count; i++)
        x[i] = constant == 0x36 ? _mm_aesenclast_si128(x[i], key[2 * i / count]) : _mm_aesenc_si128(x[i], key[2 * i / count]);
}

/* Two keys that are expanded while the blocks go through the rounds: the numbers first and first+1. */
static inline __attribute__((always_inline)) void keyed_many(uint64_t first, block *x, int count)
{
    block key[2] = {block_number(first), block_number(first + 1)};
    for (int i = 0; i < count; i++)
        x[i] = _mm_xor_si128(x[i], key[2 * i / count]);
    keyed_round(key, 0x01, x, count);
    keyed_round(key, 0x02, x, count);
    keyed_round(key, 0x04, x, count);
    keyed_round(key, 0x08, x, count);
    keyed_round(key, 0x10, x, count);
    keyed_round(key, 0x20, x, count);
    keyed_round(key, 0x40, x, count);
    keyed_round(key, 0x80, x, count);
    keyed_round(key, 0x1B, x, count);
    keyed_round(key, 0x36, x, count);
}

static inline void keyed_2(uint64_t first, block x[2])
{
    keyed_many(first, x, 2);
}

static inline void keyed_4(uint64_t first, block x[4])
{
    keyed_many(first, x, 4);
}

#define NAME(operation) aesni_##operation
#include "gates.h"
#include "opened.h"
#include "one.h"
#include "work.h"
#include "evaluate.h"
#include "decode.h"
