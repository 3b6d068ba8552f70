/* One gate, opened by each scheme. To be included after gates.h and pi_1, pi_2 and keyed_2, which are AES as pi_4 and keyed_4
 * are, of one block and of two. */
/* A free gate, opened: the evaluator does without R. */
static inline block open_free(unsigned code, block a, block b)
{
    return block_xor(block_times(free_p(code), a), block_times(free_q(code), b));
}

/* Schemes 1 and 2, opened: the one row that the colours point at; block 0 stands for scheme 2's row 0. */
static inline block open_row(unsigned scheme, uint64_t g, block a, block b, const uint8_t *rows)
{
    unsigned row = 2 * block_colour(a) + block_colour(b), stored = scheme == 1 || row > 0;
    block z = block_times(stored, block_load(rows + 16 * (scheme == 1 ? row : row - stored)));
    block k = xor3(block_double(a), block_double(block_double(b)), block_number(4 * g + row));
    return xor3(pi_1(k), k, z);
}

/* Schemes 3 and 4, opened. */
INLINE block open_half(unsigned scheme, uint64_t g, block a, block b, const uint8_t *rows)
{
    unsigned rekeyed = scheme == 4;
    block ka = rekeyed ? block_sigma(a) : block_xor(block_double(a), block_number(2 * g));
    block kb = rekeyed ? block_sigma(b) : block_xor(block_double(b), block_number(2 * g + 1));
    block k[2] = {ka, kb}, h[2] = {ka, kb};
    if (rekeyed)
        keyed_2(2 * g, h);
    else
        pi_2(h);
    block both = block_xor(xor3(h[0], k[0], h[1]), k[1]);
    block e = block_xor(block_load(rows + 16), a);
    return xor3(both, block_times(block_colour(a), block_load(rows)), block_times(block_colour(b), e));
}
