/* What memcheck must complain of: else the marks did not work, and no case says anything. */
#include <stdlib.h>
#include <string.h>

#include "garbling.h"
#include "marks.h"
#include "trials.h"
#include "weighhare.h"

struct outcome try_evaluate(const struct circuit *c, uint8_t scheme)
{
    struct outcome o = {0, 0, NULL};
    uint8_t seed[16];
    uint64_t answer[4];
    write_seed(seed);
    struct garbling g = make_garbling(c, scheme, WEIGHHARE_COLOURS, seed, 0);
    size_t inputs = g.ones_length, wires = g.zeros_length;
    uint8_t *tokens = make_room(inputs), *plain = make_room(wires), *marked = make_room(wires);
    memcpy(tokens, g.zeros, inputs);
    uint8_t number = weighhare_evaluate(c->bytes, c->length, tokens, inputs, g.material, g.material_length, plain, wires, answer);
    mark_secret(tokens, inputs);
    unsigned long before = complaints();
    number |= weighhare_evaluate(c->bytes, c->length, tokens, inputs, g.material, g.material_length, marked, wires, answer);
    o.complaints = complaints() - before;
    mark_public(marked, wires);
    expect(&o, number == 0, "it refuses");
    expect(&o, memcmp(plain, marked, wires) == 0, "it writes something else than without marks");
    free(tokens);
    free(plain);
    free(marked);
    free_garbling(&g);
    return o;
}

static volatile unsigned met;

static __attribute__((noinline)) void look_up(const uint8_t *table, const uint8_t *byte)
{
    met += table[*byte];
}

static __attribute__((noinline)) void meet(void)
{
    met++;
}

static __attribute__((noinline)) void branch(const uint8_t *byte)
{
    if (*byte & 1)
        meet();
}

struct outcome try_look_up(void)
{
    static uint8_t table[256];
    struct outcome o = {0, 0, NULL};
    uint8_t byte = 0x80;
    mark_secret(&byte, 1);
    unsigned long before = complaints();
    look_up(table, &byte);
    o.complaints = complaints() - before;
    return o;
}

struct outcome try_branch(void)
{
    struct outcome o = {0, 0, NULL};
    uint8_t byte = 1;
    mark_bits(&byte, 1);
    unsigned long before = complaints();
    branch(&byte);
    o.complaints = complaints() - before;
    return o;
}
