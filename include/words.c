/*
 * What the header itself says. Prints the words of each number and of its place, for include/check to compare with the
 * comments of the enum, and tries the names of the codes, of the schemes and of the marks on the archive. C11, and
 * C++17 too.
 */
#include "weighhare.h"

#include <stdio.h>
#include <string.h>

/* Whether a number says something: 0 that nothing refused, 1 to 30 why. */
static int is_told(unsigned number) {
    return number <= WEIGHHARE_OUTPUT_HASHES;
}

/* Each of these has words of its own, and each but 0 a place; no other number has either. */
static int words(void) {
    unsigned number, other;
    for (number = 0; number <= 255; number++) {
        const char *said = weighhare_words((uint8_t)number), *place = weighhare_place_words((uint8_t)number);
        int is_said = strcmp(said, "no such refusal") != 0, is_place = strcmp(place, "no place") != 0;
        if (is_said != is_told(number) || is_place != (number >= 1 && is_told(number))) {
            printf("number %u: %s, %s\n", number, said, place);
            return 1;
        }
        for (other = 0; is_said && other < number; other++) {
            if (strcmp(said, weighhare_words((uint8_t)other)) == 0) {
                printf("numbers %u and %u: %s\n", other, number, said);
                return 1;
            }
        }
        if (is_place) printf("%u: %s [%s]\n", number, said, place);
        else if (is_said) printf("%u: %s\n", number, said);
    }
    return 0;
}

/* Each code that has a name gives what the name says for a=u and b=v, and is charged or free; no other code is taken. */
static int codes(uint8_t u, uint8_t v) {
    const uint8_t named[14][3] = {
        {WEIGHHARE_NOR, !(u || v), 1},     {WEIGHHARE_LESS, u < v, 1},      {WEIGHHARE_NOT_A, !u, 0},
        {WEIGHHARE_GREATER, u > v, 1},     {WEIGHHARE_NOT_B, !v, 0},        {WEIGHHARE_XOR, u != v, 0},
        {WEIGHHARE_NAND, !(u && v), 1},    {WEIGHHARE_AND, u && v, 1},      {WEIGHHARE_XNOR, u == v, 0},
        {WEIGHHARE_COPY_B, v, 0},          {WEIGHHARE_AT_MOST, u <= v, 1},  {WEIGHHARE_COPY_A, u, 0},
        {WEIGHHARE_AT_LEAST, u >= v, 1},   {WEIGHHARE_OR, u || v, 1},
    };
    const uint8_t values[2] = {u, v};
    uint8_t circuit[15] = {0x43, 0x48, 0, 2, 0, 1, 0, 1, 0x43, 0x47, 0, 1, 0, 2, 0}, wires[3];
    uint64_t answer[4];
    unsigned code, next = 0;
    for (code = 0; code <= 255; code++) {
        int has_name = next < 14 && named[next][0] == code;
        circuit[14] = (uint8_t)code;
        if (weighhare_check(circuit, sizeof circuit, answer) != (has_name ? WEIGHHARE_DONE : WEIGHHARE_CODE)) break;
        if (!has_name) continue;
        if (answer[3] != named[next][2]) break;
        if (weighhare_plain(circuit, sizeof circuit, values, sizeof values, wires, sizeof wires, answer)) break;
        if (wires[2] != named[next][1]) break;
        next++;
    }
    if (code <= 255) printf("code %u is not what the header says, for a=%u and b=%u\n", code, u, v);
    return code <= 255;
}

/* Each scheme that has a name garbles an AND gate to as many rows as it has there; no other scheme is taken. */
static int schemes(void) {
    const uint8_t named[4][2] = {
        {WEIGHHARE_GAX, 4}, {WEIGHHARE_GAXR, 3}, {WEIGHHARE_HALF_GATES, 2}, {WEIGHHARE_REKEYED_HALF_GATES, 2},
    };
    const uint8_t circuit[15] = {0x43, 0x48, 0, 2, 0, 1, 0, 1, 0x43, 0x47, 0, 1, 0, 2, WEIGHHARE_AND}, seed[16] = {7};
    uint8_t material[80], zeros[48], ones[32];
    uint64_t answer[4];
    unsigned scheme, next = 0;
    for (scheme = 0; scheme <= 255; scheme++) {
        int has_name = next < 4 && named[next][0] == scheme;
        uint8_t number = weighhare_garble(circuit, sizeof circuit, seed, sizeof seed, 0, (uint8_t)scheme,
                                          WEIGHHARE_COLOURS, material, sizeof material, zeros, sizeof zeros, ones,
                                          sizeof ones, answer);
        if (number != (has_name ? WEIGHHARE_DONE : WEIGHHARE_SCHEME)) break;
        if (answer[0] != (has_name ? 11u + 1u + 4u + 16u * named[next][1] : scheme)) break;
        next += (unsigned)has_name;
    }
    if (scheme <= 255) printf("scheme %u is not what the header says\n", scheme);
    return scheme <= 255 || next != 4;
}

/* Whether garble, of an AND gate by half-gates, takes a mark as the header says: its material begins with the mark's
 * two bytes, and has a colour or two hashes at its end, by its length. */
static int mark_is_told(unsigned mark) {
    const uint8_t circuit[15] = {0x43, 0x48, 0, 2, 0, 1, 0, 1, 0x43, 0x47, 0, 1, 0, 2, WEIGHHARE_AND}, seed[16] = {7};
    const int has_name = mark == WEIGHHARE_COLOURS || mark == WEIGHHARE_HASHES;
    uint8_t material[79], zeros[48], ones[32];
    uint64_t answer[4];
    uint8_t number = weighhare_garble(circuit, sizeof circuit, seed, sizeof seed, 0, WEIGHHARE_HALF_GATES,
                                      (uint16_t)mark, material, sizeof material, zeros, sizeof zeros, ones,
                                      sizeof ones, answer);
    if (!has_name) return number == WEIGHHARE_MATERIAL_MARK && answer[0] == 0;
    if (number != WEIGHHARE_DONE || answer[0] != 9u + 36u + 2u + (mark == WEIGHHARE_HASHES ? 32u : 1u)) return 0;
    return material[0] == mark >> 8 && material[1] == (mark & 255);
}

/* The two marks that have names are taken, and no other. */
static int marks(void) {
    unsigned mark;
    for (mark = 0; mark <= 65535; mark++) {
        if (mark_is_told(mark)) continue;
        printf("mark %04X is not what the header says\n", mark);
        return 1;
    }
    return 0;
}

int main(void) {
    return words() || codes(0, 0) || codes(0, 1) || codes(1, 0) || codes(1, 1) || schemes() || marks();
}
