/* The baseline with AES by tables: a round is four look-ups for each of the four words. The tables are made once, before
 * the program's main, and so is the schedule of the fixed key. */
#include "words.h"

typedef struct {
    uint32_t word[44];
} schedule;

static uint8_t box[256];
static uint32_t table[4][256];
static schedule fixed;

/* One word of a round: from four words, the bytes of one column after ShiftRows. */
#define COLUMN(a, b, c, d) (table[0][(a) >> 24] ^ table[1][(b) >> 16 & 255] ^ table[2][(c) >> 8 & 255] ^ table[3][(d)&255])

/* The same in the last round, which has no MixColumns. */
#define LAST(a, b, c, d)                                                                                                 \
    ((uint32_t)box[(a) >> 24] << 24 | (uint32_t)box[(b) >> 16 & 255] << 16 | (uint32_t)box[(c) >> 8 & 255] << 8 |         \
     box[(d)&255])

/* A block on its way through the rounds: its four columns. */
struct columns {
    uint32_t a, b, c, d;
};

static inline struct columns first_key(block x, const uint32_t *w)
{
    return (struct columns){(uint32_t)(x.high >> 32) ^ w[0], (uint32_t)x.high ^ w[1], (uint32_t)(x.low >> 32) ^ w[2],
                            (uint32_t)x.low ^ w[3]};
}

static inline struct columns middle_round(struct columns x, const uint32_t *w)
{
    return (struct columns){COLUMN(x.a, x.b, x.c, x.d) ^ w[0], COLUMN(x.b, x.c, x.d, x.a) ^ w[1],
                            COLUMN(x.c, x.d, x.a, x.b) ^ w[2], COLUMN(x.d, x.a, x.b, x.c) ^ w[3]};
}

static inline block last_round(struct columns x, const uint32_t *w)
{
    uint32_t a = LAST(x.a, x.b, x.c, x.d) ^ w[0], b = LAST(x.b, x.c, x.d, x.a) ^ w[1];
    uint32_t c = LAST(x.c, x.d, x.a, x.b) ^ w[2], d = LAST(x.d, x.a, x.b, x.c) ^ w[3];
    return (block){(uint64_t)a << 32 | b, (uint64_t)c << 32 | d};
}

static inline block encrypt(const schedule *keys, block block)
{
    struct columns x = first_key(block, keys->word);
    for (int round = 1; round < 10; round++)
        x = middle_round(x, keys->word + 4 * round);
    return last_round(x, keys->word + 40);
}

static schedule expand(const uint8_t *key)
{
    schedule keys;
    uint32_t constant = 1;
    block first = block_load(key);
    keys.word[0] = (uint32_t)(first.high >> 32), keys.word[1] = (uint32_t)first.high;
    keys.word[2] = (uint32_t)(first.low >> 32), keys.word[3] = (uint32_t)first.low;
    for (int i = 4; i < 44; i++) {
        uint32_t word = keys.word[i - 1];
        if (i % 4 == 0) {
            word = LAST(word << 8, word << 8, word << 8, word >> 24) ^ constant << 24;
            constant = constant << 1 ^ (constant >> 7) * 0x11B;
        }
        keys.word[i] = keys.word[i - 4] ^ word;
    }
    return keys;
}

static uint8_t twice(uint8_t a)
{
    return (uint8_t)(a << 1 ^ (a >> 7) * 0x1B);
}

/* The S-box from powers of 3, the four tables from the S-box, and the fixed key's schedule. */
__attribute__((constructor)) static void make_tables(void)
{
    uint8_t power = 1, inverse = 1, key[16];
    do {
        power = power ^ twice(power);
        /* The inverse goes by a third: 3 times hex F6 is 1. */
        inverse ^= (uint8_t)(inverse << 1);
        inverse ^= (uint8_t)(inverse << 2);
        inverse ^= (uint8_t)(inverse << 4);
        inverse ^= (inverse >> 7) * 9;
        unsigned doubled = inverse | (unsigned)inverse << 8;
        box[power] = (uint8_t)(inverse ^ doubled >> 7 ^ doubled >> 6 ^ doubled >> 5 ^ doubled >> 4 ^ 0x63);
    } while (power != 1);
    box[0] = 0x63;
    for (int i = 0; i < 256; i++) {
        uint8_t s = box[i], s2 = twice(s), s3 = s2 ^ s;
        uint32_t word = (uint32_t)s2 << 24 | (uint32_t)s << 16 | (uint32_t)s << 8 | s3;
        for (int j = 0; j < 4; j++)
            table[j][i] = j == 0 ? word : word >> 8 * j | word << (32 - 8 * j);
    }
    for (uint8_t i = 0; i < 16; i++)
        key[i] = i;
    fixed = expand(key);
}

static inline block pi_1(block x)
{
    return encrypt(&fixed, x);
}

/* Two blocks side by side, round by round: their look-ups do not wait for each other. Measured, it is a fifth faster than
 * one block after the other. */
static inline void pi_2(block x[2])
{
    const uint32_t *w = fixed.word;
    struct columns one = first_key(x[0], w), other = first_key(x[1], w);
    for (int round = 1; round < 10; round++) {
        w += 4;
        one = middle_round(one, w);
        other = middle_round(other, w);
    }
    x[0] = last_round(one, w + 4);
    x[1] = last_round(other, w + 4);
}

static inline void pi_4(block x[4])
{
    pi_2(x);
    pi_2(x + 2);
}

/* The next round key of a key on its way, by words: SubWord of RotWord of the last, and sums. */
static inline struct columns next_key(struct columns key, uint32_t constant)
{
    uint32_t word = key.d;
    key.a ^= LAST(word << 8, word << 8, word << 8, word >> 24) ^ constant << 24;
    key.b ^= key.a;
    key.c ^= key.b;
    key.d ^= key.c;
    return key;
}

/* A tweak as a key: its number has fewer than 32 bits. */
static inline struct columns key_number(uint64_t number)
{
    return (struct columns){0, 0, 0, (uint32_t)number};
}

#define WORDS(key) ((const uint32_t[4]){(key).a, (key).b, (key).c, (key).d})

static const uint8_t constants[10] = {0x01, 0x02, 0x04, 0x08, 0x10, 0x20, 0x40, 0x80, 0x1B, 0x36};

/* Two blocks side by side, each under a key of its own: the numbers first and first+1. A key is expanded beside its block,
 * round by round, and no schedule is written: measured, this is a fifth faster than a loop that writes both first. */
static inline void keyed_2(uint64_t first, block x[2])
{
    struct columns key = key_number(first), other_key = key_number(first + 1);
    struct columns one = first_key(x[0], WORDS(key)), other = first_key(x[1], WORDS(other_key));
#pragma GCC unroll 9
    for (int round = 1; round < 10; round++) {
        key = next_key(key, constants[round - 1]);
        other_key = next_key(other_key, constants[round - 1]);
        one = middle_round(one, WORDS(key));
        other = middle_round(other, WORDS(other_key));
    }
    x[0] = last_round(one, WORDS(next_key(key, constants[9])));
    x[1] = last_round(other, WORDS(next_key(other_key, constants[9])));
}

/* Two blocks side by side under one key. Put together in vectors by the compiler, the words take a fourteenth longer. */
static __attribute__((noinline, optimize("no-tree-slp-vectorize"))) void keyed_pair(uint64_t number, block x[2])
{
    struct columns key = key_number(number);
    struct columns one = first_key(x[0], WORDS(key)), other = first_key(x[1], WORDS(key));
#pragma GCC unroll 9
    for (int round = 1; round < 10; round++) {
        key = next_key(key, constants[round - 1]);
        one = middle_round(one, WORDS(key));
        other = middle_round(other, WORDS(key));
    }
    key = next_key(key, constants[9]);
    x[0] = last_round(one, WORDS(key));
    x[1] = last_round(other, WORDS(key));
}

static inline void keyed_4(uint64_t first, block x[4])
{
    keyed_pair(first, x);
    keyed_pair(first + 1, x + 2);
}

#define NAME(operation) tables_##operation
#include "gates.h"
#include "opened.h"
#include "one.h"
#include "work.h"
#include "evaluate.h"
#include "decode.h"
