/* A garbling in buffers of its own. */
#ifndef GARBLING_H
#define GARBLING_H

#include "circuits.h"

/* What garble answered and wrote. */
struct garbling {
    uint8_t number;
    uint64_t answer[4];
    size_t material_length, zeros_length, ones_length;
    uint8_t *material, *zeros, *ones;
};

/* Garbles by a scheme, to material of a mark; the seed may be marked. */
struct garbling make_garbling(const struct circuit *c, uint8_t scheme, uint16_t mark, const uint8_t seed[16],
                              uint64_t run);

void free_garbling(struct garbling *g);

/* Bytes to write to, which are all hex 5A, and a seed that is always the same. */
uint8_t *make_room(size_t length);
void write_seed(uint8_t seed[16]);

#endif
