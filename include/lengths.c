/*
 * The lengths that the header says are those that the library asks for: buffers of just these take what is written, and one
 * that is a byte short is refusal 19 with that length, for comparators of every width, each scheme and each mark of the
 * material. C11, and C++17 too.
 */
#include "weighhare.h"

#include <stdio.h>

/* Room for the largest comparator, by scheme 1 with hashes; and for a few bytes more than a width's circuit needs. */
enum { WIRES = 16 * 381, MATERIAL = 4395, CIRCUIT = 1779 };

static uint8_t circuit[CIRCUIT], material[MATERIAL], zeros[WIRES], ones[WIRES], tokens[WIRES];
static const uint8_t seed[16] = {7}, values[128] = {0};

/* Whether an operation took a buffer of `length` bytes and refused one of a byte less. */
static int exact(uint8_t whole, uint8_t less, const uint64_t answer[4], size_t length) {
    return whole == WEIGHHARE_DONE && less == WEIGHHARE_ROOM && answer[0] == length;
}

/* What garble is asked for: a circuit of so many bytes, a scheme and a mark. */
typedef struct {
    size_t circuit_len;
    uint8_t scheme;
    uint16_t mark;
} wanted;

/* Garbles with buffers of these lengths. */
static uint8_t garble(wanted w, size_t material_len, size_t zeros_len, size_t ones_len, uint64_t answer[4]) {
    return weighhare_garble(circuit, w.circuit_len, seed, 16, 0, w.scheme, w.mark, material, material_len, zeros,
                            zeros_len, ones, ones_len, answer);
}

/* Whether the three buffers of garble need just these lengths, with m bytes of material. */
static int garble_exact(wanted w, size_t m, const uint64_t sizes[4]) {
    const size_t z = weighhare_wire_tokens_length(sizes), o = weighhare_input_tokens_length(sizes);
    uint64_t answer[4];
    uint8_t whole = garble(w, m, z, o, answer);
    if (answer[0] != m) return 0;
    return exact(whole, garble(w, m - 1, z, o, answer), answer, m) &&
           exact(whole, garble(w, m, z - 1, o, answer), answer, z) &&
           exact(whole, garble(w, m, z, o - 1, answer), answer, o);
}

/* The same with either mark. */
static int marks_exact(size_t c, uint8_t scheme, const uint64_t sizes[4]) {
    const wanted colours = {c, scheme, WEIGHHARE_COLOURS}, hashes = {c, scheme, WEIGHHARE_HASHES};
    return garble_exact(colours, weighhare_material_length(sizes, scheme), sizes) &&
           garble_exact(hashes, weighhare_hashed_material_length(sizes, scheme), sizes);
}

/* Whether schemes that there are not have no length. */
static int no_lengths(const uint64_t sizes[4]) {
    return weighhare_material_length(sizes, 0) == 0 && weighhare_material_length(sizes, 5) == 0 &&
           weighhare_hashed_material_length(sizes, 0) == 0 && weighhare_hashed_material_length(sizes, 5) == 0;
}

/* Whether encode's and output_tokens' buffers need just these lengths. */
static int tokens_exact(size_t c, const uint64_t sizes[4]) {
    const size_t z = weighhare_wire_tokens_length(sizes), i = weighhare_input_tokens_length(sizes),
                 o = weighhare_output_tokens_length(sizes);
    const size_t n = (size_t)sizes[0];
    uint64_t answer[4];
    uint8_t whole = weighhare_encode(circuit, c, values, n, zeros, i, ones, i, tokens, i, answer);
    uint8_t less = weighhare_encode(circuit, c, values, n, zeros, i, ones, i, tokens, i - 1, answer);
    if (!exact(whole, less, answer, i)) return 0;
    whole = weighhare_output_tokens(circuit, c, zeros, z, tokens, o, answer);
    less = weighhare_output_tokens(circuit, c, zeros, z, tokens, o - 1, answer);
    return exact(whole, less, answer, o);
}

/* Whether all lengths of a width are right. */
static int width_exact(uint64_t width) {
    const size_t c = weighhare_comparator_length(width);
    uint64_t answer[4], sizes[4];
    uint8_t scheme, whole = weighhare_comparator(width, circuit, c, answer);
    if (!exact(whole, weighhare_comparator(width, circuit, c - 1, answer), answer, c)) return 0;
    if (weighhare_check(circuit, c, sizes) != WEIGHHARE_DONE) return 0;
    for (scheme = WEIGHHARE_GAX; scheme <= WEIGHHARE_REKEYED_HALF_GATES; scheme++)
        if (!marks_exact(c, scheme, sizes)) return 0;
    return tokens_exact(c, sizes) && no_lengths(sizes);
}

int main(void) {
    uint64_t width;
    for (width = 1; width <= 64; width++) {
        if (width_exact(width)) continue;
        printf("a length for %u bits is not the library's\n", (unsigned)width);
        return 1;
    }
    return weighhare_comparator_length(0) != 0 || weighhare_comparator_length(65) != 0;
}
