/* The workers compared, byte for byte. */
#include "agree.h"

#include <stdio.h>
#include <stdlib.h>
#include <string.h>

#include "weighhare.h"

/* A copy of all that a worker writes. */
struct written {
    uint8_t *bytes;
    size_t length;
};

static void differ(const struct worker *w, const char *what)
{
    fprintf(stderr, "bench: %s and %s differ: %s\n", workers[0].name, w->name, what);
    exit(1);
}

static void append(struct written *to, const void *bytes, size_t length)
{
    to->bytes = realloc(to->bytes, to->length + length);
    if (to->bytes == NULL)
        exit(2);
    memcpy(to->bytes + to->length, bytes, length);
    to->length += length;
}

/* Garble's and evaluate's answers and whole buffers, whatever they say of the arguments. */
static struct written all_written(const struct worker *w, struct subject *s, uint8_t scheme)
{
    struct written all = {NULL, 0};
    uint64_t answer[4];
    memset(answer, 0x5A, sizeof answer);
    uint8_t number = w->check(s->circuit, s->circuit_length, answer);
    append(&all, &number, 1);
    append(&all, answer, sizeof answer);
    memset(s->material, 0x5A, s->material_room);
    memset(s->zeros, 0x5A, 16 * s->wires);
    memset(s->ones, 0x5A, 16 * INPUTS);
    memset(answer, 0x5A, sizeof answer);
    number = w->garble(s->circuit, s->circuit_length, s->seed, 16, s->run, scheme, s->mark, s->material,
                       s->material_room, s->zeros, 16 * s->wires, s->ones, 16 * INPUTS, answer);
    append(&all, &number, 1);
    append(&all, answer, sizeof answer);
    append(&all, s->material, s->material_room);
    append(&all, s->zeros, 16 * s->wires);
    append(&all, s->ones, 16 * INPUTS);
    return all;
}

static struct written all_evaluated(const struct worker *w, struct subject *s)
{
    struct written all = {NULL, 0};
    uint64_t answer[4];
    memset(answer, 0x5A, sizeof answer);
    memset(s->held, 0x5A, 16 * s->wires);
    uint8_t number = w->evaluate(s->circuit, s->circuit_length, s->tokens, 16 * INPUTS, s->material, s->material_length,
                                 s->held, 16 * s->wires, answer);
    append(&all, &number, 1);
    append(&all, answer, sizeof answer);
    append(&all, s->held, 16 * s->wires);
    return all;
}

static struct written all_decoded(const struct worker *w, struct subject *s)
{
    struct written all = {NULL, 0};
    uint64_t answer[4];
    memset(answer, 0x5A, sizeof answer);
    memset(s->bits, 0x5A, OUTPUTS);
    uint8_t number = w->decode(s->circuit, s->circuit_length, s->outputs, 16 * OUTPUTS, s->material, s->material_length,
                               s->bits, OUTPUTS, answer);
    append(&all, &number, 1);
    append(&all, answer, sizeof answer);
    append(&all, s->bits, OUTPUTS);
    return all;
}

static void same(const struct worker *w, const char *what, struct written library, struct written other)
{
    if (library.length != other.length || memcmp(library.bytes, other.bytes, library.length) != 0)
        differ(w, what);
    free(other.bytes);
}

static void agree_on_garble(struct subject *s, uint8_t scheme)
{
    struct written library = all_written(&workers[0], s, scheme);
    for (unsigned i = 1; i < worker_count; i++)
        same(&workers[i], "check or garble", library, all_written(&workers[i], s, scheme));
    free(library.bytes);
}

static void agree_on_evaluate(struct subject *s)
{
    struct written library = all_evaluated(&workers[0], s);
    for (unsigned i = 1; i < worker_count; i++)
        if (workers[i].evaluate != NULL)
            same(&workers[i], "evaluate", library, all_evaluated(&workers[i], s));
    free(library.bytes);
}

static void agree_on_decode(struct subject *s)
{
    struct written library = all_decoded(&workers[0], s);
    for (unsigned i = 1; i < worker_count; i++)
        same(&workers[i], "decode", library, all_decoded(&workers[i], s));
    free(library.bytes);
}

static const uint16_t marks[2] = {WEIGHHARE_COLOURS, WEIGHHARE_HASHES};

void agree_on(struct subject *s)
{
    for (unsigned i = 0; i < 8; i++) {
        uint8_t scheme = (uint8_t)(1 + i % 4);
        s->mark = marks[i / 4];
        agree_on_garble(s, scheme);
        run_garble(&workers[0], s, scheme);
        agree_on_evaluate(s);
        find_outputs(s);
        agree_on_decode(s);
    }
    s->mark = WEIGHHARE_COLOURS;
}

/* So many calls with one bit of an argument changed, in turn with either mark. */
static void agree_on_changed(struct subject *s, unsigned calls)
{
    for (unsigned i = 0; i < calls; i++) {
        uint8_t scheme = (uint8_t)(1 + i % 4), flip = (uint8_t)(1u << random_below(8));
        uint8_t *byte = &s->circuit[random_below(s->circuit_length)];
        s->mark = marks[i / 16 % 2];
        *byte ^= flip;
        agree_on_garble(s, scheme);
        *byte ^= flip;
        run_garble(&workers[0], s, scheme);
        find_outputs(s);
        byte = i / 4 % 4 ? &s->material[random_below(s->material_length)] : &s->circuit[random_below(s->circuit_length)];
        *byte ^= flip;
        s->material_length += i % 7 == 0;
        agree_on_evaluate(s);
        agree_on_decode(s);
        s->material_length -= i % 7 == 0;
        *byte ^= flip;
        s->outputs[37 * i % (16 * OUTPUTS)] ^= flip;
        agree_on_decode(s);
    }
    s->mark = WEIGHHARE_COLOURS;
}

/* Every bit of these bytes of the material changed. */
static void agree_on_material_bits(struct subject *s, size_t from, size_t to)
{
    for (size_t bit = 8 * from; bit < 8 * to; bit++) {
        uint8_t flip = (uint8_t)(1u << bit % 8);
        s->material[bit / 8] ^= flip;
        agree_on_evaluate(s);
        agree_on_decode(s);
        s->material[bit / 8] ^= flip;
    }
}

/* Every mark that shares a byte with a right one, as the argument; every bit of the header, of the last record's mark
 * and of the two bytes after it, in material of either mark. */
static void agree_on_marks(struct subject *s)
{
    for (unsigned byte = 0; byte <= 255; byte++) {
        const unsigned tried[3] = {0x4700 | byte, byte << 8 | 0x48, byte << 8 | 0x4A};
        for (int i = 0; i < 3; i++) {
            s->mark = (uint16_t)tried[i];
            agree_on_garble(s, (uint8_t)(byte % 6));
        }
    }
    for (unsigned i = 0; i < 8; i++) {
        s->mark = marks[i / 4];
        run_garble(&workers[0], s, (uint8_t)(1 + i % 4));
        find_outputs(s);
        size_t last = s->material_length - OUTPUTS * (i / 4 ? 32 : 1) - 2;
        agree_on_material_bits(s, 0, 9);
        agree_on_material_bits(s, last, last + 4);
    }
    s->mark = WEIGHHARE_COLOURS;
}

/* Every bit of these bytes of the circuit changed. */
static void agree_on_bits(struct subject *s, size_t from, size_t to)
{
    for (size_t bit = 8 * from; bit < 8 * to; bit++) {
        uint8_t scheme = (uint8_t)(1 + bit % 4), flip = (uint8_t)(1u << bit % 8);
        run_garble(&workers[0], s, scheme);
        s->circuit[bit / 8] ^= flip;
        agree_on_evaluate(s);
        agree_on_garble(s, scheme);
        s->circuit[bit / 8] ^= flip;
    }
}

/* Every scheme byte, as the argument and in material of every scheme: schemes 3 and 4 take each other's. */
static void agree_on_schemes(struct subject *s)
{
    for (unsigned byte = 0; byte <= 255; byte++) {
        agree_on_garble(s, (uint8_t)byte);
        for (uint8_t scheme = 1; scheme <= 4; scheme++) {
            run_garble(&workers[0], s, scheme);
            s->material[2] = (uint8_t)byte;
            agree_on_evaluate(s);
        }
    }
}

void agree_on_damage(unsigned calls)
{
    struct subject s = make_subject(150);
    agree_on_changed(&s, calls);
    agree_on_bits(&s, 0, 8);
    agree_on_schemes(&s);
    agree_on_marks(&s);
    free_subject(&s);
}

void agree_on_runs(unsigned calls)
{
    static const uint64_t runs[] = {1, UINT64_C(0x100000001), UINT64_C(0x0102030405060708), UINT64_MAX};
    struct subject s = make_subject(150);
    for (size_t i = 0; i < sizeof runs / sizeof runs[0]; i++) {
        s.run = runs[i];
        agree_on(&s);
        agree_on_changed(&s, calls);
    }
    free_subject(&s);
}

void agree_on_one_operand(unsigned calls)
{
    struct subject s = make_subject(150);
    use_one_operand(&s);
    agree_on(&s);
    agree_on_changed(&s, calls);
    free_subject(&s);
}

void agree_on_named(unsigned calls)
{
    struct subject s = make_subject(150);
    size_t outputs = s.circuit_length;
    use_one_operand(&s);
    name_outputs(&s);
    agree_on(&s);
    agree_on_changed(&s, calls);
    agree_on_bits(&s, 0, 8);
    agree_on_bits(&s, outputs, outputs + 4);
    agree_on_bits(&s, s.circuit_length - 4, s.circuit_length);
    free_subject(&s);
}
