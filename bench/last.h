/* The material's last record, written: colours, or hashes of the outputs' tokens by scheme 3's hash, whatever the
 * scheme. To be included after gates.h. */

/* The cipher's input for the hash of an output's token; outputs count from 1. */
static inline block output_key(block x, size_t output)
{
    return block_xor(block_double(x), block_number(2 * (65536 + (uint64_t)output)));
}

static void write_colours(const uint8_t *circuit, const struct sizes *z, const uint8_t *zeros, uint8_t *at)
{
    at[0] = 0x47, at[1] = 0x44;
    for (size_t i = 0; i < z->m; i++)
        at[2 + i] = zeros[16 * (output_wire(circuit, z, i) - 1) + 15] & 1;
}

/* Two outputs at a time: the hashes of the zero token and of the one token of each. */
static void write_hashes(const uint8_t *circuit, const struct sizes *z, const struct offset *o, const uint8_t *zeros,
                         uint8_t *at)
{
    at[0] = 0x47, at[1] = 0x41;
    at += 2;
    for (size_t i = 0; i < z->m; i += 2) {
        size_t both = i + 1 < z->m;
        block first = output_key(block_load(zeros + 16 * (output_wire(circuit, z, i) - 1)), i + 1);
        block second = output_key(block_load(zeros + 16 * (output_wire(circuit, z, i + both) - 1)), i + 1 + both);
        block k[4] = {first, block_xor(first, o->r2), second, block_xor(second, o->r2)};
        block h[4] = {k[0], k[1], k[2], k[3]};
        pi_4(h);
        for (size_t j = 0; j < 2 + 2 * both; j++, at += 16)
            block_store(at, block_xor(h[j], k[j]));
    }
}

/* The first output whose two hashes are equal, from 1, or 0. `at` is where the hashes start. */
static size_t find_clash(const struct sizes *z, const uint8_t *at)
{
    for (size_t i = 0; i < z->m; i++)
        if (memcmp(at + 32 * i, at + 32 * i + 16, 16) == 0)
            return i + 1;
    return 0;
}
