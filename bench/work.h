/* The operations check and garble over the gates of gates.h. NAME(x) gives the operation's own name. To be included after
 * gates.h and what comes from the seed: seed_of, seed_offset, seed_inputs, seed_charged and fresh_token, as one.h has them. */
#include <string.h>

#include "baseline.h"
#include "files.h"
#include "last.h"

static uint8_t answered(uint64_t answer[4], unsigned number, uint64_t first, uint64_t second)
{
    answer[0] = first, answer[1] = second, answer[2] = 0, answer[3] = 0;
    return (uint8_t)number;
}

uint8_t NAME(check)(const uint8_t *circuit, size_t length, uint64_t answer[4])
{
    struct sizes z;
    uint64_t place;
    unsigned number = check_circuit(circuit, length, &z, &place);
    if (number != 0)
        return answered(answer, number, place, 0);
    answer[0] = z.n, answer[1] = z.m, answer[2] = z.q, answer[3] = z.p;
    return 0;
}

/* A charged gate's record: its mark, its wire number and its rows. */
INLINE uint8_t *write_record(uint8_t *at, size_t g, const block *rows, size_t count)
{
    at[0] = 0x47, at[1] = 0x54, at[2] = (uint8_t)(g >> 8), at[3] = (uint8_t)g;
    at += 4;
    for (size_t i = 0; i < count; i++, at += 16)
        block_store(at, rows[i]);
    return at;
}

/* A charged gate: its record, its zero token; the place of the next record. */
INLINE uint8_t *garble_charged(unsigned scheme, const struct seed *seed, const struct offset *o, unsigned code, size_t g,
                               block xa, block xb, const uint8_t *zeros, block *x, uint8_t *at)
{
    block rows[4];
    if (scheme == 1) {
        block fresh = fresh_token(seed, zeros, g);
        *x = garble_rows(o, code, g, xa, xb, &fresh, rows);
        return write_record(at, g, rows, 4);
    }
    if (scheme == 2) {
        *x = garble_rows(o, code, g, xa, xb, NULL, rows);
        return write_record(at, g, rows + 1, 3);
    }
    *x = garble_half(scheme, o, code, g, xa, xb, rows);
    return write_record(at, g, rows, 2);
}

/* All gates by one scheme: the zero tokens and the records. The place of the last record. */
INLINE uint8_t *garble_gates(unsigned scheme, const uint8_t *circuit, const struct sizes *z, const struct seed *seed,
                             const struct offset *o, uint8_t *at, uint8_t *zeros)
{
    const uint8_t *record = circuit + 8;
    size_t end = z->n + z->q;
    for (size_t g = z->n + 1; g <= end; g++, record += 7) {
        unsigned code = record[6];
        block xa = block_load(zeros + 16 * (number16(record + 2) - 1));
        block xb = block_load(zeros + 16 * (number16(record + 4) - 1));
        block x;
        if (is_free(code))
            x = garble_free(o, code, xa, xb);
        else
            at = garble_charged(scheme, seed, o, code, g, xa, xb, zeros, &x, at);
        block_store(zeros + 16 * (g - 1), x);
    }
    return at;
}

/* The inputs, the header with its mark, the gates and the last record. The output whose hashes are equal, or 0. */
static size_t garble_all(unsigned scheme, uint16_t mark, const uint8_t *circuit, const struct sizes *z,
                         const uint8_t *key, uint64_t run, uint8_t *material, uint8_t *zeros, uint8_t *ones)
{
    struct seed seed = seed_of(key, run);
    struct offset o = offset_of(block_coloured(seed_offset(&seed)));
    seed_inputs(&seed, z->n, o.r, zeros, ones);
    if (scheme == 1)
        seed_charged(&seed, circuit, z, zeros);
    material[0] = (uint8_t)(mark >> 8), material[1] = (uint8_t)mark, material[2] = (uint8_t)scheme;
    memcpy(material + 3, circuit + 2, 6);
    uint8_t *at = material + 9;
    if (scheme == 1)
        at = garble_gates(1, circuit, z, &seed, &o, at, zeros);
    else if (scheme == 2)
        at = garble_gates(2, circuit, z, &seed, &o, at, zeros);
    else if (scheme == 3)
        at = garble_gates(3, circuit, z, &seed, &o, at, zeros);
    else
        at = garble_gates(4, circuit, z, &seed, &o, at, zeros);
    if (!is_hashed(material)) {
        write_colours(circuit, z, zeros, at);
        return 0;
    }
    write_hashes(circuit, z, &o, zeros, at);
    return find_clash(z, at + 2);
}

uint8_t NAME(garble)(const uint8_t *circuit, size_t length, const uint8_t *seed, size_t seed_length, uint64_t run,
                     uint8_t scheme, uint16_t mark, uint8_t *material, size_t material_room, uint8_t *zeros,
                     size_t zeros_room, uint8_t *ones, size_t ones_room, uint64_t answer[4])
{
    struct sizes z;
    uint64_t place;
    unsigned number = check_circuit(circuit, length, &z, &place);
    if (number != 0)
        return answered(answer, number, place, 0);
    if (seed_length != 16)
        return answered(answer, 8, seed_length, 0);
    if (mark != 0x4748 && mark != 0x474A)
        return answered(answer, 13, 0, 0);
    if (scheme < 1 || scheme > 4)
        return answered(answer, 14, scheme, 0);
    unsigned hashed = mark == 0x474A;
    size_t file = material_length(&z, scheme, hashed), wires = 16 * (z.n + z.q), inputs = 16 * z.n;
    if (material_room < file)
        return answered(answer, 19, file, 0);
    if (zeros_room < wires)
        return answered(answer, 19, wires, 0);
    if (ones_room < inputs)
        return answered(answer, 19, inputs, 0);
    size_t clash = garble_all(scheme, mark, circuit, &z, seed, run, material, zeros, ones);
    if (clash != 0) {
        memset(material, 0, file);
        memset(zeros, 0, wires);
        memset(ones, 0, inputs);
        return answered(answer, 30, clash, 0);
    }
    return answered(answer, 0, file, 4 * z.p + (hashed ? 2 * z.m : 0));
}
