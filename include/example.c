/*
 * An AND gate garbled, evaluated from its bytes and from a list of gates, and decoded, for each pair of input values:
 * all from one seed, each a run of its own. Then one with hashes, so that a token that was mistyped is refused; the
 * outputs of a circuit that names them; and three more refusals. C11, and C++17 too.
 */
#define _DEFAULT_SOURCE /* explicit_bzero */
#include "weighhare.h"

#include <stdio.h>
#include <string.h>
#include <sys/random.h>

/* 2 inputs, 1 output, 1 gate: wire 3 is wire 1 AND wire 2. */
static const uint8_t and_gate[15] = {0x43, 0x48, 0, 2, 0, 1, 0, 1, 0x43, 0x47, 0, 1, 0, 2, WEIGHHARE_AND};

/* The same gate, already read: for an evaluator that runs one circuit many times. */
static const weighhare_gate and_read[1] = {{1, 2, WEIGHHARE_AND}};

/* The same gate with its outputs by name: wire 3, wire 1, which is an input and so shown by decoding, and wire 3 again. */
static const uint8_t named[27] = {0x43, 0x49, 0, 2, 0, 3, 0, 1, 0x43, 0x47, 0, 1, 0, 2, WEIGHHARE_AND,
                                  0x43, 0x4F, 0, 3, 0x43, 0x4F, 0, 1, 0x43, 0x4F, 0, 3};

/* The same with an output that is no wire, the second. */
static const uint8_t no_wire[27] = {0x43, 0x49, 0, 2, 0, 3, 0, 1, 0x43, 0x47, 0, 1, 0, 2, WEIGHHARE_AND,
                                    0x43, 0x4F, 0, 3, 0x43, 0x4F, 0, 4, 0x43, 0x4F, 0, 3};

/* The same circuit, but no gate has code 0. */
static const uint8_t no_gate[15] = {0x43, 0x48, 0, 2, 0, 1, 0, 1, 0x43, 0x47, 0, 1, 0, 2, 0};

/* Says why an operation refused, and where, and gives whether it did. */
static int refused(const char *operation, uint8_t number, const uint64_t answer[4]) {
    if (number != WEIGHHARE_DONE) {
        printf("%s: refusal %u: %s (%s: %llu)\n", operation, (unsigned)number, weighhare_words(number),
               weighhare_place_words(number), (unsigned long long)answer[0]);
    }
    return number != WEIGHHARE_DONE;
}

/* One garbling and its evaluation. Whether something refused. */
static int work(const uint8_t seed[16], uint64_t run, uint8_t scheme, uint8_t u, uint8_t v) {
    const uint8_t values[2] = {u, v};
    uint8_t material[80], zeros[3 * 16], ones[2 * 16], tokens[2 * 16], wires[3 * 16], same[3 * 16], output[16], bit[1];
    uint64_t answer[4];
    size_t length;

    /* The garbler's side: a run number that no other garbling from this seed has. It sends the material, and a token for
     * each input. */
    if (refused("garble", weighhare_garble(and_gate, sizeof and_gate, seed, 16, run, scheme, WEIGHHARE_COLOURS,
                                           material, sizeof material, zeros, sizeof zeros, ones, sizeof ones, answer),
                answer)) return 1;
    length = (size_t)answer[0];
    if (refused("encode", weighhare_encode(and_gate, sizeof and_gate, values, sizeof values, zeros, 2 * 16, ones, sizeof ones,
                                           tokens, sizeof tokens, answer), answer)) return 1;
    explicit_bzero(zeros, sizeof zeros);
    explicit_bzero(ones, sizeof ones);

    /* The evaluator's side. */
    if (refused("evaluate", weighhare_evaluate(and_gate, sizeof and_gate, tokens, sizeof tokens, material, length, wires,
                                               sizeof wires, answer), answer)) return 1;
    if (refused("evaluate_gates", weighhare_evaluate_gates(2, 1, and_read, 1, tokens, sizeof tokens, material, length, same,
                                                           sizeof same, answer), answer)) return 1;
    if (memcmp(same, wires, sizeof wires) != 0) return 1;
    if (refused("output_tokens", weighhare_output_tokens(and_gate, sizeof and_gate, wires, sizeof wires, output, sizeof output,
                                                         answer), answer)) return 1;
    if (refused("decode", weighhare_decode(and_gate, sizeof and_gate, output, sizeof output, material, length, bit, sizeof bit,
                                           answer), answer)) return 1;
    explicit_bzero(tokens, sizeof tokens);
    explicit_bzero(output, sizeof output);
    explicit_bzero(wires, sizeof wires);
    explicit_bzero(same, sizeof same);
    printf("scheme %u: %u AND %u is %u, in %u bytes of material\n", scheme, u, v, bit[0], (unsigned)length);
    return 0;
}

/* Each pair of values by each scheme, in runs 0 to 15 of the seed. Whether something refused. */
static int work_all(const uint8_t seed[16]) {
    uint64_t run = 0;
    uint8_t scheme, pair;
    for (scheme = WEIGHHARE_GAX; scheme <= WEIGHHARE_REKEYED_HALF_GATES; scheme++) {
        for (pair = 0; pair < 4; pair++) {
            if (work(seed, run++, scheme, (uint8_t)(pair >> 1), (uint8_t)(pair & 1))) return 1;
        }
    }
    return 0;
}

/* Decodes an output's token by material of mark 47 4A, as it is and mistyped. Whether the right one was refused. */
static int decode_hashed(const uint8_t *material, size_t length, uint8_t output[16]) {
    uint8_t bit[1];
    uint64_t answer[4];
    if (refused("decode", weighhare_decode(and_gate, sizeof and_gate, output, 16, material, length, bit, sizeof bit,
                                           answer), answer)) return 1;
    printf("with hashes: 1 AND 1 is %u, in %u bytes of material\n", bit[0], (unsigned)length);
    output[3] ^= 0x10;
    refused("decode of a mistyped token", weighhare_decode(and_gate, sizeof and_gate, output, 16, material, length, bit,
                                                           sizeof bit, answer), answer);
    return 0;
}

/* One garbling with hashes, by half-gates, evaluated on the one tokens. Whether something refused. */
static int work_hashed(const uint8_t seed[16], uint64_t run) {
    uint8_t material[79], zeros[3 * 16], ones[2 * 16], wires[3 * 16];
    uint64_t answer[4];
    size_t length;
    int failed;
    if (refused("garble", weighhare_garble(and_gate, sizeof and_gate, seed, 16, run, WEIGHHARE_HALF_GATES,
                                           WEIGHHARE_HASHES, material, sizeof material, zeros, sizeof zeros, ones,
                                           sizeof ones, answer), answer)) return 1;
    length = (size_t)answer[0];
    failed = refused("evaluate", weighhare_evaluate(and_gate, sizeof and_gate, ones, sizeof ones, material, length,
                                                    wires, sizeof wires, answer), answer) ||
             decode_hashed(material, length, wires + 2 * 16);
    explicit_bzero(zeros, sizeof zeros);
    explicit_bzero(ones, sizeof ones);
    explicit_bzero(wires, sizeof wires);
    return failed;
}

/* Which of the wires 1, 2, 3 each named output is, by tokens that tell them. Whether something refused. */
static int work_named(void) {
    uint8_t wires[3 * 16], outputs[3 * 16];
    uint64_t answer[4];
    unsigned k;
    for (k = 0; k < sizeof wires; k++) wires[k] = (uint8_t)(1 + k / 16);
    if (refused("output_tokens", weighhare_output_tokens(named, sizeof named, wires, sizeof wires, outputs, sizeof outputs,
                                                         answer), answer)) return 1;
    printf("named outputs: wires %u, %u, %u\n", outputs[0], outputs[16], outputs[32]);
    return 0;
}

int main(void) {
    uint64_t answer[4];
    uint8_t seed[16];
    int failed;
    if (getrandom(seed, sizeof seed, 0) != 16) {
        printf("no seed\n");
        return 1;
    }
    failed = work_all(seed) || work_hashed(seed, 16);
    explicit_bzero(seed, sizeof seed);
    if (failed || work_named()) return 1;
    refused("check of 7 bytes", weighhare_check(and_gate, 7, answer), answer);
    refused("check of code 0", weighhare_check(no_gate, sizeof no_gate, answer), answer);
    refused("check of an output that is no wire", weighhare_check(no_wire, sizeof no_wire, answer), answer);
    return 0;
}
