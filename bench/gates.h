/* One gate, garbled by each scheme, over any block and any AES. To be included after `block`, its functions, pi_4, which is
 * AES under the fixed key, and keyed_4, which is AES under two keys of the call, are defined. A bit times a block is taken by
 * a mask: colours are as good as random. */
#include "files.h"

#define INLINE static inline __attribute__((always_inline))

/* R, and what doubling and σ make of it: both are linear, so those of the other tokens need not be worked out. */
struct offset {
    block r, r2, r4, sigma;
};

static inline struct offset offset_of(block r)
{
    block r2 = block_double(r);
    return (struct offset){r, r2, block_double(r2), block_sigma(r)};
}

static inline block xor3(block a, block b, block c)
{
    return block_xor(block_xor(a, b), c);
}

/* A free gate's zero token: pXa ⊕ qXb ⊕ cR. */
static inline block garble_free(const struct offset *o, unsigned code, block xa, block xb)
{
    return xor3(block_times(free_p(code), xa), block_times(free_q(code), xb), block_times(free_c(code), o->r));
}

/* The cipher's input for each of the four rows, and the gate's value there: row 2c+d is that of the colours c and d. */
static inline void row_keys(const struct offset *o, unsigned code, uint64_t g, block xa, block xb, block k[4],
                            unsigned value[4])
{
    unsigned ca = block_colour(xa), cb = block_colour(xb);
    block both = block_xor(block_double(xa), block_double(block_double(xb)));
    for (unsigned row = 0; row < 4; row++) {
        unsigned u = row >> 1 ^ ca, v = (row & 1) ^ cb;
        block moved = xor3(both, block_times(u, o->r2), block_times(v, o->r4));
        k[row] = block_xor(moved, block_number(4 * g + row));
        value[row] = code >> (2 * u + v) & 1;
    }
}

/* Schemes 1 and 2: the rows, the first of which scheme 2 does not store, and the zero token. */
static inline block garble_rows(const struct offset *o, unsigned code, uint64_t g, block xa, block xb, const block *fresh,
                                block rows[4])
{
    block k[4];
    unsigned value[4];
    row_keys(o, code, g, xa, xb, k, value);
    for (int i = 0; i < 4; i++)
        rows[i] = k[i];
    pi_4(rows);
    for (int i = 0; i < 4; i++)
        rows[i] = block_xor(rows[i], k[i]);
    block x = fresh ? *fresh : block_xor(rows[0], block_times(value[0], o->r));
    for (int i = 0; i < 4; i++)
        rows[i] = xor3(rows[i], x, block_times(value[i], o->r));
    return x;
}

/* α, β and γ of a charged code, as bits 2, 1 and 0. */
static const uint8_t half_bits[16] = {[1] = 6, [2] = 4, [4] = 2, [8] = 0, [14] = 7, [13] = 5, [11] = 3, [7] = 1};

/* Schemes 3 and 4: rows G and E, and the zero token. Under scheme 4 two keys, 2g and 2g+1, serve two blocks each. It is made
 * for the scheme that it is called with. */
INLINE block garble_half(unsigned scheme, const struct offset *o, unsigned code, uint64_t g, block xa, block xb, block rows[2])
{
    unsigned bits = half_bits[code], rekeyed = scheme == 4;
    block a = block_xor(xa, block_times(bits >> 2, o->r)), b = block_xor(xb, block_times(bits >> 1 & 1, o->r));
    unsigned s = block_colour(a), t = block_colour(b);
    block ka = rekeyed ? block_sigma(a) : block_xor(block_double(a), block_number(2 * g));
    block kb = rekeyed ? block_sigma(b) : block_xor(block_double(b), block_number(2 * g + 1));
    block apart = rekeyed ? o->sigma : o->r2;
    block k[4] = {ka, block_xor(ka, apart), kb, block_xor(kb, apart)}, h[4] = {k[0], k[1], k[2], k[3]};
    if (rekeyed)
        keyed_4(2 * g, h);
    else
        pi_4(h);
    for (int i = 0; i < 4; i++)
        h[i] = block_xor(h[i], k[i]);
    block other = block_xor(h[2], h[3]); /* E ⊕ A */
    rows[0] = xor3(h[0], h[1], block_times(t, o->r));
    rows[1] = block_xor(other, a);
    block x = xor3(h[0], h[2], block_times(bits & 1, o->r));
    return xor3(x, block_times(s, rows[0]), block_times(t, other));
}
