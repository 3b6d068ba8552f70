/* Four blocks in bit planes, and the steps of AES's rounds on them: no look-up and no branch by data. Plane p, of eight words,
 * has bit p of every byte. The form is that of A. Adomnicai and T. Peyrin, "Fixslicing AES-like Ciphers", 2021: ShiftRows is
 * left out, so that after k rounds row r stands turned by kr columns, which MixColumns and the round keys allow for; after four
 * rounds it stands as before. Rows and columns are counted from the last, since a block's words are big-endian: lane
 * 16r + 8h + 2c + l has row 3-r of column 3-c of block 2h+l. */
#ifndef PLANES_H
#define PLANES_H

#include "words.h"

/* All of it is put into the loop over the gates. */
#define PLANE static inline __attribute__((always_inline))

typedef struct {
    uint64_t p[8];
} planes;

/* A word of eight times the same byte. */
#define EACH_BYTE(byte) ((byte)*UINT64_C(0x0101010101010101))

PLANE uint64_t turned_left(uint64_t x, int lanes)
{
    return x << lanes | x >> (64 - lanes);
}

/* SubBytes but for hex 63, which stands in the round keys: the 115 gates of J. Boyar and R. Peralta, "A new combinational logic
 * minimization technique with applications to cryptology", 2010, under their names. */
PLANE planes sub_bytes(planes x)
{
    const uint64_t u0 = x.p[7], u1 = x.p[6], u2 = x.p[5], u3 = x.p[4], u4 = x.p[3], u5 = x.p[2], u6 = x.p[1], u7 = x.p[0];
    const uint64_t y14 = u3 ^ u5, y13 = u0 ^ u6, y9 = u0 ^ u3, y8 = u0 ^ u5, t0 = u1 ^ u2, y1 = t0 ^ u7, y4 = y1 ^ u3;
    const uint64_t y12 = y13 ^ y14, y2 = y1 ^ u0, y5 = y1 ^ u6, y3 = y5 ^ y8, t1 = u4 ^ y12, y15 = t1 ^ u5;
    const uint64_t y20 = t1 ^ u1, y6 = y15 ^ u7, y10 = y15 ^ t0, y11 = y20 ^ y9, y7 = u7 ^ y11, y17 = y10 ^ y11;
    const uint64_t y19 = y10 ^ y8, y16 = t0 ^ y11, y21 = y13 ^ y16, y18 = u0 ^ y16, t2 = y12 & y15, t3 = y3 & y6;
    const uint64_t t4 = t3 ^ t2, t5 = y4 & u7, t6 = t5 ^ t2, t7 = y13 & y16, t8 = y5 & y1, t9 = t8 ^ t7;
    const uint64_t t10 = y2 & y7, t11 = t10 ^ t7, t12 = y9 & y11, t13 = y14 & y17, t14 = t13 ^ t12, t15 = y8 & y10;
    const uint64_t t16 = t15 ^ t12, t17 = t4 ^ t14, t18 = t6 ^ t16, t19 = t9 ^ t14, t20 = t11 ^ t16, t21 = t17 ^ y20;
    const uint64_t t22 = t18 ^ y19, t23 = t19 ^ y21, t24 = t20 ^ y18, t25 = t21 ^ t22, t26 = t21 & t23;
    const uint64_t t27 = t24 ^ t26, t28 = t25 & t27, t29 = t28 ^ t22, t30 = t23 ^ t24, t31 = t22 ^ t26;
    const uint64_t t32 = t31 & t30, t33 = t32 ^ t24, t34 = t23 ^ t33, t35 = t27 ^ t33, t36 = t24 & t35;
    const uint64_t t37 = t36 ^ t34, t38 = t27 ^ t36, t39 = t29 & t38, t40 = t25 ^ t39, t41 = t40 ^ t37;
    const uint64_t t42 = t29 ^ t33, t43 = t29 ^ t40, t44 = t33 ^ t37, t45 = t42 ^ t41, z0 = t44 & y15, z1 = t37 & y6;
    const uint64_t z2 = t33 & u7, z3 = t43 & y16, z4 = t40 & y1, z5 = t29 & y7, z6 = t42 & y11, z7 = t45 & y17;
    const uint64_t z8 = t41 & y10, z9 = t44 & y12, z10 = t37 & y3, z11 = t33 & y4, z12 = t43 & y13, z13 = t40 & y5;
    const uint64_t z14 = t29 & y2, z15 = t42 & y9, z16 = t45 & y14, z17 = t41 & y8, t46 = z15 ^ z16, t47 = z10 ^ z11;
    const uint64_t t48 = z5 ^ z13, t49 = z9 ^ z10, t50 = z2 ^ z12, t51 = z2 ^ z5, t52 = z7 ^ z8, t53 = z0 ^ z3;
    const uint64_t t54 = z6 ^ z7, t55 = z16 ^ z17, t56 = z12 ^ t48, t57 = t50 ^ t53, t58 = z4 ^ t46, t59 = z3 ^ t54;
    const uint64_t t60 = t46 ^ t57, t61 = z14 ^ t57, t62 = t52 ^ t58, t63 = t49 ^ t58, t64 = z4 ^ t59;
    const uint64_t t65 = t61 ^ t62, t66 = z1 ^ t63, s0 = t59 ^ t63, s6 = t56 ^ t62, s7 = t48 ^ t60, t67 = t64 ^ t65;
    const uint64_t s3 = t53 ^ t66, s4 = t51 ^ t66, s5 = t47 ^ t65, s1 = t64 ^ s3, s2 = t55 ^ t67;
    return (planes){{s7, s6, s5, s4, s3, s2, s1, s0}};
}

/* In each lane what stands so many rows and columns on. A row's columns, of two blocks, are the lanes of a byte: where columns
 * leave it and come in at its other end, a second turn is for these. */
PLANE uint64_t on(uint64_t x, int rows, int columns)
{
    const uint64_t stay = EACH_BYTE((uint64_t)(0xFF << 2 * columns & 0xFF));
    uint64_t straight = turned_left(x, 16 * rows + 2 * columns);
    return columns == 0 ? straight : (straight & stay) | (turned_left(x, 16 * rows + 2 * columns - 8) & ~stay);
}

/* MixColumns where ShiftRows was left out k times: the next row is k columns on. {02}a ⊕ {03}b ⊕ c ⊕ d is b ⊕ (c ⊕ d) ⊕
 * {02}(a ⊕ b), and c ⊕ d is a ⊕ b of two rows on. */
PLANE planes mix_columns(planes x, int k)
{
    planes y;
    uint64_t b[8], ab[8];
    for (int i = 0; i < 8; i++) {
        b[i] = on(x.p[i], 1, k);
        ab[i] = x.p[i] ^ b[i];
    }
    for (int i = 0; i < 8; i++) {
        uint64_t twice = ab[(i + 7) % 8] ^ (i == 1 || i == 3 || i == 4 ? ab[7] : 0);
        y.p[i] = b[i] ^ on(ab[i], 2, 2 * k % 4) ^ twice;
    }
    return y;
}

PLANE planes add_key(planes x, const uint64_t *key)
{
    for (int i = 0; i < 8; i++)
        x.p[i] ^= key[i];
    return x;
}

/* Exchanges bits of two words: those of the first whose number has the digit s, with those of the other that stand s lower. */
PLANE void exchange(uint64_t *first, uint64_t *second, int s, uint64_t lower)
{
    uint64_t t = (*first >> s ^ *second) & lower;
    *first ^= t << s;
    *second ^= t;
}

/* The six digits of a bit's number. */
#define BY_1(a, b) exchange(a, b, 1, EACH_BYTE(0x55))
#define BY_2(a, b) exchange(a, b, 2, EACH_BYTE(0x33))
#define BY_4(a, b) exchange(a, b, 4, EACH_BYTE(0x0F))
#define BY_8(a, b) exchange(a, b, 8, UINT64_C(0x00FF00FF00FF00FF))
#define BY_16(a, b) exchange(a, b, 16, UINT64_C(0x0000FFFF0000FFFF))
#define BY_32(a, b) exchange(a, b, 32, UINT64_C(0x00000000FFFFFFFF))

/* Four blocks to planes. Word 4h + 2l + t has a half of block 2h+l, the last for t = 0. Each exchange is of a digit of a bit's
 * number with one of its word's; after the six, plane 4a + 2b + c is word 4b + 2c + a. */
PLANE planes pack(const block x[4])
{
    uint64_t w[8];
    for (int i = 0; i < 4; i++)
        w[2 * i] = x[i].low, w[2 * i + 1] = x[i].high;
    for (int i = 0; i < 4; i++) {
        BY_8(&w[i], &w[i + 4]);
        BY_16(&w[i], &w[i + 4]);
        BY_32(&w[i], &w[i + 4]);
        BY_2(&w[i], &w[i + 4]);
    }
    for (int i = 0; i < 8; i += 2)
        BY_4(&w[i], &w[i + 1]);
    for (int i = 0; i < 2; i++) {
        BY_1(&w[i], &w[i + 2]);
        BY_1(&w[i + 4], &w[i + 6]);
    }
    return (planes){{w[0], w[2], w[4], w[6], w[1], w[3], w[5], w[7]}};
}

/* The blocks again, after ten rounds: by then rows 1 and 3 stand turned by two columns, which are the other half's. */
PLANE void unpack(planes y, block x[4])
{
    uint64_t w[8] = {y.p[0], y.p[4], y.p[1], y.p[5], y.p[2], y.p[6], y.p[3], y.p[7]};
    for (int i = 0; i < 2; i++) {
        BY_1(&w[i], &w[i + 2]);
        BY_1(&w[i + 4], &w[i + 6]);
    }
    for (int i = 0; i < 8; i += 2)
        BY_4(&w[i], &w[i + 1]);
    for (int i = 0; i < 4; i++) {
        BY_2(&w[i], &w[i + 4]);
        BY_32(&w[i], &w[i + 4]);
        BY_16(&w[i], &w[i + 4]);
        BY_8(&w[i], &w[i + 4]);
    }
    for (int i = 0; i < 4; i++) {
        uint64_t odd = (w[2 * i] ^ w[2 * i + 1]) & UINT64_C(0x00FF00FF00FF00FF);
        x[i] = (block){w[2 * i + 1] ^ odd, w[2 * i] ^ odd};
    }
}

/* Four blocks under eleven keys in planes, eight words each: rounds 1 to 9 by four, and the last, which mixes nothing. */
PLANE void encrypt_four(const uint64_t keys[88], block x[4])
{
    planes y = add_key(pack(x), keys);
    for (const uint64_t *key = keys + 8;; key += 32) {
        y = add_key(mix_columns(sub_bytes(y), 1), key);
        if (key == keys + 72)
            break;
        y = add_key(mix_columns(sub_bytes(y), 2), key + 8);
        y = add_key(mix_columns(sub_bytes(y), 3), key + 16);
        y = add_key(mix_columns(sub_bytes(y), 0), key + 24);
    }
    unpack(add_key(sub_bytes(y), keys + 80), x);
}

#endif
