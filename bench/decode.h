/* The operation decode. To be included after work.h. */

/* The hashes of four outputs' tokens, from output i on, which counts from 0; past the last, of output i again. */
static void hash_tokens(const uint8_t *tokens, size_t i, size_t m, uint8_t hashes[64])
{
    block k[4], h[4];
    for (size_t j = 0; j < 4; j++) {
        size_t output = i + j < m ? i + j : i;
        k[j] = h[j] = output_key(block_load(tokens + 16 * output), output + 1);
    }
    pi_4(h);
    for (size_t j = 0; j < 4; j++)
        block_store(hashes + 16 * j, block_xor(h[j], k[j]));
}

/* Whether two hashes differ, without a branch. */
static inline unsigned differs(const uint8_t *a, const uint8_t *b)
{
    uint64_t x[2], y[2];
    memcpy(x, a, 16);
    memcpy(y, b, 16);
    return ((x[0] ^ y[0]) | (x[1] ^ y[1])) != 0;
}

/* The bits by hashes: 0, or the first output whose token has neither hash, from 1. */
static size_t decode_hashes(const uint8_t *tokens, const uint8_t *stored, size_t m, uint8_t *bits)
{
    size_t unknown = 0;
    for (size_t i = 0; i < m; i += 4) {
        uint8_t hashes[64];
        hash_tokens(tokens, i, m, hashes);
        for (size_t j = 0; j < 4 && i + j < m; j++) {
            const uint8_t *pair = stored + 32 * (i + j);
            unsigned zero = differs(hashes + 16 * j, pair), one = differs(hashes + 16 * j, pair + 16);
            bits[i + j] = (uint8_t)zero;
            unknown = unknown != 0 ? unknown : (zero & one) * (i + j + 1);
        }
    }
    return unknown;
}

uint8_t NAME(decode)(const uint8_t *circuit, size_t length, const uint8_t *tokens, size_t tokens_length,
                     const uint8_t *material, size_t material_room, uint8_t *bits, size_t bits_room, uint64_t answer[4])
{
    struct sizes z;
    uint64_t place;
    unsigned number = check_circuit(circuit, length, &z, &place);
    if (number != 0)
        return answered(answer, number, place, 0);
    if (tokens_length != 16 * z.m)
        return answered(answer, 11, tokens_length, 0);
    number = check_material(circuit, &z, material, material_room, &place);
    if (number != 0)
        return answered(answer, number, place, 0);
    if (bits_room < z.m)
        return answered(answer, 19, z.m, 0);
    uint8_t found[65535]; /* what is refused leaves the caller's bits as they were */
    const uint8_t *last = material + material_room - z.m * output_bytes(is_hashed(material));
    size_t unknown = 0;
    if (is_hashed(material))
        unknown = decode_hashes(tokens, last, z.m, found);
    else
        for (size_t i = 0; i < z.m; i++)
            found[i] = (tokens[16 * i + 15] & 1) ^ last[i];
    if (unknown != 0)
        return answered(answer, 29, unknown, 0);
    memcpy(bits, found, z.m);
    return answered(answer, 0, 0, 0);
}
