/* Encode and pick with secret tokens, and encode with secret values: a value's bit 0 is secret, that the others are 0 is not. */
#include <stdlib.h>
#include <string.h>

#include "garbling.h"
#include "marks.h"
#include "trials.h"
#include "weighhare.h"

/* Lists of tokens and values for a circuit, and what encode answered and wrote. */
struct encoding {
    size_t n;
    uint8_t *values, *zeros, *ones, *tokens;
    uint8_t number;
    uint64_t answer[4];
};

static struct encoding make_encoding(const struct circuit *c)
{
    struct encoding e = {.n = c->sizes[0]};
    e.values = make_room(e.n);
    e.zeros = make_room(16 * e.n);
    e.ones = make_room(16 * e.n);
    e.tokens = make_room(16 * e.n);
    for (size_t i = 0; i < 16 * e.n; i++) {
        e.values[i / 16] = i / 16 % 3 == 1;
        e.zeros[i] = (uint8_t)(7 * i + i / 256);
        e.ones[i] = (uint8_t)(~5 * i - i / 256);
    }
    return e;
}

static void free_encoding(struct encoding *e)
{
    free(e->values);
    free(e->zeros);
    free(e->ones);
    free(e->tokens);
}

static void encode(const struct circuit *c, struct encoding *e)
{
    e->number = weighhare_encode(c->bytes, c->length, e->values, e->n, e->zeros, 16 * e->n, e->ones, 16 * e->n, e->tokens,
                                 16 * e->n, e->answer);
}

/* Encodes with marks; what it answers is public. */
static void encode_marked(const struct circuit *c, struct encoding *e, struct outcome *o)
{
    mark_bits(e->values, e->n);
    mark_secret(e->zeros, 16 * e->n);
    mark_secret(e->ones, 16 * e->n);
    unsigned long before = complaints();
    encode(c, e);
    count(o, complaints() - before, 0);
    expect(o, is_public(&e->number, 1) && is_public(e->answer, sizeof e->answer), "the answer depends on a secret");
    mark_public(&e->number, 1);
    mark_public(e->answer, sizeof e->answer);
}

struct outcome try_encode(const struct circuit *c)
{
    struct outcome o = {0, 0, NULL};
    struct encoding plain = make_encoding(c), marked = make_encoding(c);
    encode(c, &plain);
    encode_marked(c, &marked, &o);
    expect(&o, plain.number == 0 && marked.number == 0, "it refuses");
    expect(&o, is_secret(marked.tokens, 16 * marked.n), "a byte that it writes does not depend on a token");
    mark_public(marked.tokens, 16 * marked.n);
    expect(&o, memcmp(plain.tokens, marked.tokens, 16 * marked.n) == 0, "it writes something else than without marks");
    for (size_t i = 0; i < plain.n; i++) {
        const uint8_t *due = (plain.values[i] ? plain.ones : plain.zeros) + 16 * i;
        expect(&o, memcmp(plain.tokens + 16 * i, due, 16) == 0, "it writes a wrong token");
    }
    free_encoding(&plain);
    free_encoding(&marked);
    return o;
}

/* Pick with the tokens of four wires. The bit is no secret here: what it answers says which list to take. */
static void pick(uint16_t wire, uint8_t bit, struct outcome *o)
{
    uint8_t zeros[64] = {0}, ones[64] = {0};
    uint64_t answer[4];
    mark_secret(zeros, sizeof zeros);
    mark_secret(ones, sizeof ones);
    unsigned long before = complaints();
    uint8_t number = weighhare_pick(zeros, sizeof zeros, ones, sizeof ones, wire, bit, answer);
    count(o, complaints() - before, 0);
    expect(o, is_public(&number, 1) && is_public(answer, sizeof answer), "the answer depends on a token");
    mark_public(&number, 1);
    mark_public(answer, sizeof answer);
    expect(o, number == 0 && answer[0] == bit && answer[1] == 16 * (wire - 1u) && answer[2] == 16 && answer[3] == 0,
           "it answers something else");
}

struct outcome try_pick(void)
{
    struct outcome o = {0, 0, NULL};
    for (uint16_t wire = 1; wire <= 4; wire++) {
        pick(wire, 0, &o);
        pick(wire, 1, &o);
    }
    return o;
}
