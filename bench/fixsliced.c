/* The baseline with AES in bit planes (planes.h), for garbling alone: the four calls of a charged gate are one, and so are
 * the tokens of four inputs, and under scheme 1 those of four charged gates. Nothing is looked up by a secret and nothing
 * branches by one. Scheme 4's keys are wire numbers, which are public: these are expanded by look-ups in the S-box. */

/* Measured: where gcc 12 may use AVX-512 it takes two fifths longer; with vectors, or without an order of instructions that
 * spares registers, a tenth. */
#pragma GCC target("no-avx512f")
#pragma GCC optimize("no-tree-vectorize", "schedule-insns", "sched-pressure")

#include "planes.h"

static uint8_t box[256];

/* The round keys in planes, for each of four blocks. */
typedef struct {
    uint64_t word[88];
} schedule;

static schedule fixed;

static const uint8_t constants[10] = {0x01, 0x02, 0x04, 0x08, 0x10, 0x20, 0x40, 0x80, 0x1B, 0x36};

/* The key of a round from 1 on with its rows turned as the state's are there, and with hex 63, which sub_bytes left out. Where row 1
 * is turned by an odd number of columns: rows 2 and 3 by two, and then rows 1 and 3 by one, to the one side or the other. */
PLANE block turned_key(block key, int round)
{
    const uint64_t odd = UINT64_C(0x00FF00FF00FF00FF), last = UINT64_C(0x0000FFFF0000FFFF);
    uint64_t moved = (key.high ^ key.low) & (round % 4 == 0 ? 0 : round % 4 == 2 ? odd : last);
    key = (block){key.high ^ moved, key.low ^ moved};
    if (round % 2 == 1) {
        block by_one = {key.low << 32 | key.high >> 32, key.high << 32 | key.low >> 32};
        if (round % 4 == 3)
            by_one = (block){by_one.low, by_one.high};
        key = (block){key.high ^ ((key.high ^ by_one.high) & odd), key.low ^ ((key.low ^ by_one.low) & odd)};
    }
    return (block){key.high ^ EACH_BYTE(0x63), key.low ^ EACH_BYTE(0x63)};
}

/* Two round keys in planes, the first for blocks 0 and 1 and the other for blocks 2 and 3: as pack, but each once. After five
 * exchanges a word has two planes in turns, lane by lane, and each of their lanes is doubled. */
PLANE void put_keys(uint64_t *at, block key, block other)
{
    uint64_t w[4] = {key.low, key.high, other.low, other.high};
    for (int i = 0; i < 2; i++) {
        BY_8(&w[i], &w[i + 2]);
        BY_16(&w[i], &w[i + 2]);
        BY_32(&w[i], &w[i + 2]);
        BY_2(&w[i], &w[i + 2]);
    }
    BY_4(&w[0], &w[1]);
    BY_4(&w[2], &w[3]);
    for (int i = 0; i < 4; i++) {
        int p = 4 * (i & 1) + (i & 2);
        at[p] = 3 * (w[i] & EACH_BYTE(0x55));
        at[p + 1] = 3 * (w[i] >> 1 & EACH_BYTE(0x55));
    }
}

/* The next round key, by words, from SubWord of the last word. */
PLANE block next_key(block key, uint32_t word, uint8_t constant)
{
    uint32_t a = (uint32_t)(key.high >> 32) ^ (word << 8 | word >> 24) ^ (uint32_t)constant << 24;
    uint32_t b = (uint32_t)key.high ^ a, c = (uint32_t)(key.low >> 32) ^ b;
    return (block){(uint64_t)a << 32 | b, (uint64_t)c << 32 | ((uint32_t)key.low ^ c)};
}

/* SubWord in planes, for the seed. */
static uint32_t sub_word(uint32_t word)
{
    block x[4] = {{0, word}, {0, 0}, {0, 0}, {0, 0}};
    /* Unpack turns rows 1 and 3 back, which here were not turned: they are in the other half. */
    unpack(sub_bytes(pack(x)), x);
    return (uint32_t)((x[0].low & 0xFF00FF00u) | (x[0].high & 0x00FF00FFu)) ^ 0x63636363u;
}

static schedule expand(const uint8_t *bytes)
{
    schedule keys;
    block key = block_load(bytes);
    put_keys(keys.word, key, key);
#pragma GCC unroll 10
    for (int round = 1; round <= 10; round++) {
        key = next_key(key, sub_word((uint32_t)key.low), constants[round - 1]);
        block turned = turned_key(key, round);
        put_keys(keys.word + 8 * round, turned, turned);
    }
    return keys;
}

/* SubWord by look-ups, for keys that everybody knows. */
PLANE uint32_t looked_up(uint64_t low)
{
    return (uint32_t)box[low >> 24 & 255] << 24 | (uint32_t)box[low >> 16 & 255] << 16 | (uint32_t)box[low >> 8 & 255] << 8 |
           box[low & 255];
}

/* The schedules of two numbers, first and first+1, as keys. */
static inline void expand_two(uint64_t first, uint64_t words[88])
{
    block key = block_number(first), other = block_number(first + 1);
    put_keys(words, key, other);
#pragma GCC unroll 10
    for (int round = 1; round <= 10; round++) {
        key = next_key(key, looked_up(key.low), constants[round - 1]);
        other = next_key(other, looked_up(other.low), constants[round - 1]);
        put_keys(words + 8 * round, turned_key(key, round), turned_key(other, round));
    }
}

/* The S-box from the planes, and the fixed key's schedule. */
__attribute__((constructor)) static void make_tables(void)
{
    uint8_t key[16];
    for (unsigned i = 0; i < 256; i++)
        box[i] = (uint8_t)sub_word(i);
    for (uint8_t i = 0; i < 16; i++)
        key[i] = i;
    fixed = expand(key);
}

PLANE void pi_4(block x[4])
{
    encrypt_four(fixed.word, x);
}

PLANE void keyed_4(uint64_t first, block x[4])
{
    uint64_t words[88];
    expand_two(first, words);
    encrypt_four(words, x);
}

#define NAME(operation) fixsliced_##operation
#include "gates.h"
#include "four.h"
#include "work.h"
#include "decode.h"
