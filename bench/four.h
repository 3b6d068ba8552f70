/* What comes from the seed, four blocks at a time. To be included after gates.h and `schedule`, expand and encrypt_four, which
 * are AES under the seed. */

/* The seed's schedule, and which of its garblings this is. */
struct seed {
    schedule keys;
    uint64_t run;
};

INLINE struct seed seed_of(const uint8_t *key, uint64_t run)
{
    return (struct seed){expand(key), run};
}

/* The run number and each of four wire numbers, 0 for R, enciphered. */
static __attribute__((noinline)) void seed_blocks(const struct seed *seed, const uint64_t numbers[4], block x[4])
{
    for (int i = 0; i < 4; i++)
        x[i] = (block){seed->run, numbers[i]};
    encrypt_four(seed->keys.word, x);
}

INLINE block seed_offset(const struct seed *seed)
{
    block x[4];
    seed_blocks(seed, (const uint64_t[4]){0}, x);
    return x[0];
}

/* The inputs' tokens, both of each. */
INLINE void seed_inputs(const struct seed *seed, size_t n, block r, uint8_t *zeros, uint8_t *ones)
{
    for (size_t i = 0; i < n; i += 4) {
        block x[4];
        seed_blocks(seed, (const uint64_t[4]){i + 1, i + 2, i + 3, i + 4}, x);
        for (size_t j = 0; j < 4 && i + j < n; j++) {
            block_store(zeros + 16 * (i + j), x[j]);
            block_store(ones + 16 * (i + j), block_xor(x[j], r));
        }
    }
}

/* The tokens of four charged gates, or of fewer at the end, each written where it will stand. */
INLINE void seed_gates(const struct seed *seed, const uint64_t gates[4], unsigned count, uint8_t *zeros)
{
    block x[4];
    seed_blocks(seed, gates, x);
    for (unsigned i = 0; i < count; i++)
        block_store(zeros + 16 * (gates[i] - 1), x[i]);
}

/* Scheme 1's tokens of all charged gates, before the gates themselves: no token waits for another. */
INLINE void seed_charged(const struct seed *seed, const uint8_t *circuit, const struct sizes *z, uint8_t *zeros)
{
    uint64_t gates[4] = {0};
    unsigned count = 0;
    for (size_t i = 0; i < z->q; i++) {
        if (is_free(circuit[8 + 7 * i + 6]))
            continue;
        gates[count++] = z->n + 1 + i;
        if (count == 4) {
            seed_gates(seed, gates, 4, zeros);
            count = 0;
        }
    }
    if (count > 0)
        seed_gates(seed, gates, count, zeros);
}

INLINE block fresh_token(const struct seed *seed, const uint8_t *zeros, size_t g)
{
    (void)seed;
    return block_load(zeros + 16 * (g - 1));
}
