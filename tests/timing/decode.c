/* Decode with secret tokens: of the outputs one has its zero token, the next its one token, and so on. */
#include <stdlib.h>
#include <string.h>

#include "garbling.h"
#include "marks.h"
#include "trials.h"
#include "weighhare.h"

/* The outputs' tokens: the zero tokens, and every second one ⊕ R, by which the tokens of input 1 differ. */
static uint8_t *output_tokens(const struct circuit *c, const struct garbling *g, struct outcome *o)
{
    size_t length = weighhare_output_tokens_length(c->sizes);
    uint8_t *tokens = make_room(length);
    uint64_t answer[4];
    uint8_t number = weighhare_output_tokens(c->bytes, c->length, g->zeros, g->zeros_length, tokens, length, answer);
    expect(o, number == 0, "the outputs' tokens are refused");
    for (size_t i = 0; i < length; i++)
        if (i / 16 % 2 == 1)
            tokens[i] ^= g->zeros[i % 16] ^ g->ones[i % 16];
    return tokens;
}

/* Decodes with the tokens marked. With hashes one branch is due: whether a token has neither of its two, refusal 29. */
static void decode_marked(const struct circuit *c, const struct garbling *g, uint8_t *tokens, uint8_t *bits,
                          unsigned long due, struct outcome *o)
{
    size_t m = c->sizes[1];
    uint64_t answer[4];
    mark_secret(tokens, 16 * m);
    unsigned long before = complaints();
    uint8_t number = weighhare_decode(c->bytes, c->length, tokens, 16 * m, g->material, g->material_length, bits, m,
                                      answer);
    count(o, complaints() - before, due);
    expect(o, is_public(&number, 1) && is_public(answer, sizeof answer), "the answer depends on a token");
    mark_public(&number, 1);
    expect(o, number == 0, "it refuses");
    expect(o, is_secret(bits, m), "a bit does not depend on a token");
    mark_public(bits, m);
}

struct outcome try_decode(const struct circuit *c, uint8_t scheme, uint16_t mark)
{
    struct outcome o = {0, 0, NULL};
    uint8_t seed[16];
    write_seed(seed);
    struct garbling g = make_garbling(c, scheme, mark, seed, 0);
    uint8_t *tokens = output_tokens(c, &g, &o), *bits = make_room(c->sizes[1]);
    decode_marked(c, &g, tokens, bits, mark == WEIGHHARE_HASHES, &o);
    for (size_t i = 0; i < c->sizes[1]; i++)
        expect(&o, bits[i] == i % 2, "it decodes to a wrong bit");
    free(tokens);
    free(bits);
    free_garbling(&g);
    return o;
}
