/* What comes from the seed, a block at a time. To be included after gates.h and `schedule`, expand and encrypt, which are AES
 * under the seed. */

/* The seed's schedule, and which of its garblings this is: a block with the run number in the first 8 bytes. */
struct seed {
    schedule keys;
    block run;
};

INLINE struct seed seed_of(const uint8_t *key, uint64_t run)
{
    return (struct seed){expand(key), block_first(run)};
}

/* The run number and a wire number, 0 for R, enciphered. */
INLINE block seed_block(const struct seed *seed, uint64_t number)
{
    return encrypt(&seed->keys, block_xor(seed->run, block_number(number)));
}

INLINE block seed_offset(const struct seed *seed)
{
    return seed_block(seed, 0);
}

/* The inputs' tokens, both of each. */
INLINE void seed_inputs(const struct seed *seed, size_t n, block r, uint8_t *zeros, uint8_t *ones)
{
    for (size_t i = 0; i < n; i++) {
        block x = seed_block(seed, i + 1);
        block_store(zeros + 16 * i, x);
        block_store(ones + 16 * i, block_xor(x, r));
    }
}

/* Scheme 1's token of a charged gate, made where it is used: nothing is made before. */
INLINE void seed_charged(const struct seed *seed, const uint8_t *circuit, const struct sizes *z, uint8_t *zeros)
{
    (void)seed, (void)circuit, (void)z, (void)zeros;
}

INLINE block fresh_token(const struct seed *seed, const uint8_t *zeros, size_t g)
{
    (void)zeros;
    return seed_block(seed, g);
}
