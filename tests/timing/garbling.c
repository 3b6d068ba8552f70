/* Garble, and its buffers. */
#include "garbling.h"

#include <stdlib.h>
#include <string.h>

#include "weighhare.h"

uint8_t *make_room(size_t length)
{
    uint8_t *room = malloc(length);
    if (room == NULL)
        exit(2);
    memset(room, 0x5A, length);
    return room;
}

void write_seed(uint8_t seed[16])
{
    for (int i = 0; i < 16; i++)
        seed[i] = (uint8_t)(0x9D * i + 0x3B);
}

struct garbling make_garbling(const struct circuit *c, uint8_t scheme, uint16_t mark, const uint8_t seed[16],
                              uint64_t run)
{
    const int hashed = mark == WEIGHHARE_HASHES;
    struct garbling g = {.material_length = hashed ? weighhare_hashed_material_length(c->sizes, scheme)
                                                   : weighhare_material_length(c->sizes, scheme),
                         .zeros_length = weighhare_wire_tokens_length(c->sizes),
                         .ones_length = weighhare_input_tokens_length(c->sizes)};
    g.material = make_room(g.material_length);
    g.zeros = make_room(g.zeros_length);
    g.ones = make_room(g.ones_length);
    g.number = weighhare_garble(c->bytes, c->length, seed, 16, run, scheme, mark, g.material, g.material_length,
                                g.zeros, g.zeros_length, g.ones, g.ones_length, g.answer);
    return g;
}

void free_garbling(struct garbling *g)
{
    free(g->material);
    free(g->zeros);
    free(g->ones);
}
