/*
 * Whether a price is within a ceiling, two figures of 32 bits: the circuit is weighhare_comparator's, garbled, evaluated
 * and decoded by each scheme for a price under the ceiling, equal to it and over it. All from one seed, each a run of its
 * own. Then two refusals. C11, and C++17 too.
 */
#define _DEFAULT_SOURCE /* explicit_bzero */
#include "weighhare.h"

#include <stdio.h>
#include <string.h>
#include <sys/random.h>

/* The bits of a figure, and what comes of them: the wires, and bytes. Scheme 1 has the longest material. With the mark
 * 47 4A it has 32 bytes for the output, so that the desk does not take a wrong token for an answer. */
enum {
    WIDTH = 32,
    INPUTS = 2 * WIDTH,
    WIRES = 6 * WIDTH - 3,
    CIRCUIT = 28 * WIDTH - 13,
    MATERIAL = 11 + 32 + WIDTH * (4 + 16 * 4)
};

/* What the desk gets from the seller, and from purchasing. */
typedef struct {
    uint8_t material[MATERIAL], tokens[INPUTS * 16];
    size_t length; /* of the material */
} sent;

/* Says why an operation refused, and where, and gives whether it did. */
static int refused(const char *operation, uint8_t number, const uint64_t answer[4]) {
    if (number != WEIGHHARE_DONE) {
        printf("%s: refusal %u: %s (%s: %llu)\n", operation, (unsigned)number, weighhare_words(number),
               weighhare_place_words(number), (unsigned long long)answer[0]);
    }
    return number != WEIGHHARE_DONE;
}

/* The bits of a figure as value bytes, the lowest first. */
static void put_figure(uint32_t figure, uint8_t values[WIDTH]) {
    unsigned k;
    for (k = 0; k < WIDTH; k++) values[k] = (uint8_t)((figure >> k) & 1);
}

/* The garbler's side: a run number that no other garbling from this seed has. The price's tokens are the seller's to send;
 * the ceiling's reach purchasing by oblivious transfer, which is outside the library: here one list of values stands for
 * both. Whether something refused. */
static int garble(const uint8_t circuit[CIRCUIT], const uint8_t seed[16], uint64_t run, uint8_t scheme, uint32_t price,
                  uint32_t ceiling, sent *to) {
    uint8_t values[INPUTS], zeros[WIRES * 16], ones[INPUTS * 16];
    uint64_t answer[4];
    int failed;
    put_figure(price, values);
    put_figure(ceiling, values + WIDTH);
    if (refused("garble", weighhare_garble(circuit, CIRCUIT, seed, 16, run, scheme, WEIGHHARE_HASHES, to->material,
                                           sizeof to->material, zeros, sizeof zeros, ones, sizeof ones, answer),
                answer)) return 1;
    to->length = (size_t)answer[0];
    failed = refused("encode", weighhare_encode(circuit, CIRCUIT, values, sizeof values, zeros, INPUTS * 16, ones,
                                                sizeof ones, to->tokens, sizeof to->tokens, answer), answer);
    explicit_bzero(values, sizeof values);
    explicit_bzero(zeros, sizeof zeros);
    explicit_bzero(ones, sizeof ones);
    return failed;
}

/* The evaluator's side: the desk, which sees neither figure. Whether something refused. */
static int evaluate(const uint8_t circuit[CIRCUIT], const sent *from, uint8_t bit[1]) {
    uint8_t wires[WIRES * 16], output[16];
    uint64_t answer[4];
    int failed;
    if (refused("evaluate", weighhare_evaluate(circuit, CIRCUIT, from->tokens, sizeof from->tokens, from->material,
                                               from->length, wires, sizeof wires, answer), answer)) return 1;
    failed = refused("output_tokens", weighhare_output_tokens(circuit, CIRCUIT, wires, sizeof wires, output, sizeof output,
                                                              answer), answer) ||
             refused("decode", weighhare_decode(circuit, CIRCUIT, output, sizeof output, from->material, from->length, bit,
                                                1, answer), answer);
    explicit_bzero(wires, sizeof wires);
    explicit_bzero(output, sizeof output);
    return failed;
}

/* The circuit for the width, and its sizes. Whether something refused. */
static int make(uint8_t circuit[CIRCUIT]) {
    uint64_t answer[4];
    unsigned length;
    if (refused("comparator", weighhare_comparator(WIDTH, circuit, CIRCUIT, answer), answer)) return 1;
    length = (unsigned)answer[0];
    if (refused("check", weighhare_check(circuit, length, answer), answer)) return 1;
    printf("figures of %u bits: a circuit of %u bytes with %u inputs, %u output, %u gates, %u of them charged\n",
           (unsigned)WIDTH, length, (unsigned)answer[0], (unsigned)answer[1], (unsigned)answer[2], (unsigned)answer[3]);
    return 0;
}

/* Each price and ceiling by each scheme, each a run of its own. Whether something refused. */
static int compare_all(const uint8_t circuit[CIRCUIT], const uint8_t seed[16]) {
    const uint32_t figures[5][2] = {{1200, 1500}, {1500, 1500}, {1501, 1500}, {0, 4294967295u}, {4294967295u, 0}};
    uint64_t run = 0;
    uint8_t scheme, bit[1];
    unsigned k;
    sent desk;
    for (scheme = WEIGHHARE_GAX; scheme <= WEIGHHARE_REKEYED_HALF_GATES; scheme++) {
        for (k = 0; k < 5; k++) {
            if (garble(circuit, seed, run++, scheme, figures[k][0], figures[k][1], &desk)) return 1;
            if (evaluate(circuit, &desk, bit)) return 1;
            explicit_bzero(desk.tokens, sizeof desk.tokens);
            printf("scheme %u, price %lu, ceiling %lu: the price is %s the ceiling\n", (unsigned)scheme,
                   (unsigned long)figures[k][0], (unsigned long)figures[k][1], bit[0] ? "within" : "over");
        }
    }
    return 0;
}

int main(void) {
    uint8_t circuit[CIRCUIT], seed[16];
    uint64_t answer[4];
    int failed;
    if (make(circuit)) return 1;
    if (getrandom(seed, sizeof seed, 0) != 16) {
        printf("no seed\n");
        return 1;
    }
    failed = compare_all(circuit, seed);
    explicit_bzero(seed, sizeof seed);
    if (failed) return 1;
    refused("comparator of 65 bits", weighhare_comparator(65, circuit, sizeof circuit, answer), answer);
    refused("comparator of 64 bits", weighhare_comparator(64, circuit, sizeof circuit, answer), answer);
    return 0;
}
