/* The circuit that is measured, and its calls. */
#include "subject.h"

#include <stdio.h>
#include <stdlib.h>
#include <string.h>

#include "weighhare.h"

struct worker workers[MOST_WORKERS] = {
    {"library", weighhare_check, weighhare_garble, weighhare_evaluate, weighhare_decode},
    {"tables", tables_check, tables_garble, tables_evaluate, tables_decode},
    {"fixsliced", fixsliced_check, fixsliced_garble, NULL, fixsliced_decode},
};

unsigned worker_count = 3;

void find_workers(void)
{
    if (__builtin_cpu_supports("aes") && __builtin_cpu_supports("ssse3"))
        workers[worker_count++] = (struct worker){"aesni", aesni_check, aesni_garble, aesni_evaluate, aesni_decode};
    if (chained_check != NULL)
        workers[worker_count++] =
            (struct worker){"chained", chained_check, chained_garble, chained_evaluate, chained_decode};
}

static uint64_t state = 88172645463325252u;

size_t random_below(size_t bound)
{
    state ^= state << 13, state ^= state >> 7, state ^= state << 17;
    return (size_t)((state >> 11) % bound);
}

static void put16(uint8_t *at, size_t number)
{
    at[0] = (uint8_t)(number >> 8), at[1] = (uint8_t)number;
}

/* Gate i, counted from 0: two wires before it, and a charged code while `charged` of the `left` gates are to be. */
static int put_gate(uint8_t *record, size_t wire, size_t charged, size_t left)
{
    static const uint8_t charged_codes[8] = {1, 2, 4, 7, 8, 11, 13, 14}, free_codes[2] = {6, 9};
    size_t b = 2 + random_below(wire - 2), a = 1 + random_below(b - 1);
    int is_charged = random_below(left) < charged;
    record[0] = 0x43, record[1] = 0x47;
    put16(record + 2, a);
    put16(record + 4, b);
    record[6] = is_charged ? charged_codes[random_below(8)] : free_codes[random_below(2)];
    return is_charged;
}

static uint8_t *room(size_t length)
{
    uint8_t *bytes = calloc(length, 1);
    if (bytes == NULL)
        exit(2);
    return bytes;
}

struct subject make_subject(size_t q)
{
    struct subject s = {.q = q, .p = q / 2, .wires = INPUTS + q, .mark = WEIGHHARE_COLOURS};
    s.circuit_length = 8 + 7 * q;
    s.material_room = 11 + 32 * OUTPUTS + s.p * (4 + 64);
    s.circuit = room(s.circuit_length);
    s.material = room(s.material_room);
    s.zeros = room(16 * s.wires);
    s.held = room(16 * s.wires);
    s.ones = room(16 * INPUTS);
    s.tokens = room(16 * INPUTS);
    s.outputs = room(16 * OUTPUTS);
    s.bits = room(OUTPUTS);
    s.circuit[0] = 0x43, s.circuit[1] = 0x48;
    put16(s.circuit + 2, INPUTS);
    put16(s.circuit + 4, OUTPUTS);
    put16(s.circuit + 6, q);
    size_t charged = s.p;
    for (size_t i = 0; i < q; i++)
        charged -= (size_t)put_gate(s.circuit + 8 + 7 * i, INPUTS + 1 + i, charged, q - i);
    for (int i = 0; i < 16; i++)
        s.seed[i] = (uint8_t)random_below(256);
    return s;
}

void use_one_operand(struct subject *s)
{
    static const uint8_t codes[4] = {3, 5, 10, 12};
    size_t free_gates = 0;
    for (size_t i = 0; i < s->q; i++) {
        uint8_t *code = s->circuit + 14 + 7 * i;
        if ((*code == 6 || *code == 9) && free_gates++ % 2 == 0)
            *code = codes[free_gates / 2 % 4];
    }
}

void name_outputs(struct subject *s)
{
    uint8_t *named = room(s->circuit_length + 4 * OUTPUTS), *record = named + s->circuit_length;
    memcpy(named, s->circuit, s->circuit_length);
    named[1] = 0x49;
    for (size_t i = 0; i < OUTPUTS; i++, record += 4) {
        record[0] = 0x43, record[1] = 0x4F;
        put16(record + 2, i == 0 ? 1 : i == 1 ? s->wires : 1 + random_below(s->wires));
    }
    free(s->circuit);
    s->circuit = named;
    s->circuit_length += 4 * OUTPUTS;
}

void free_subject(struct subject *s)
{
    free(s->circuit);
    free(s->material);
    free(s->zeros);
    free(s->held);
    free(s->ones);
    free(s->tokens);
    free(s->outputs);
    free(s->bits);
}

static void must(const struct worker *w, const char *operation, uint8_t number)
{
    if (number != 0) {
        fprintf(stderr, "bench: %s %s refused %d\n", w->name, operation, number);
        exit(1);
    }
}

void run_check(const struct worker *w, struct subject *s)
{
    uint64_t answer[4];
    must(w, "check", w->check(s->circuit, s->circuit_length, answer));
}

void run_garble(const struct worker *w, struct subject *s, uint8_t scheme)
{
    uint64_t answer[4];
    must(w, "garble", w->garble(s->circuit, s->circuit_length, s->seed, 16, s->run, scheme, s->mark, s->material,
                                s->material_room, s->zeros, 16 * s->wires, s->ones, 16 * INPUTS, answer));
    s->material_length = answer[0];
    for (size_t i = 0; i < INPUTS; i++)
        memcpy(s->tokens + 16 * i, (i % 2 ? s->ones : s->zeros) + 16 * i, 16);
}

void run_evaluate(const struct worker *w, struct subject *s)
{
    uint64_t answer[4];
    must(w, "evaluate", w->evaluate(s->circuit, s->circuit_length, s->tokens, 16 * INPUTS, s->material, s->material_length,
                                    s->held, 16 * s->wires, answer));
}

void run_decode(const struct worker *w, struct subject *s)
{
    uint64_t answer[4];
    must(w, "decode", w->decode(s->circuit, s->circuit_length, s->outputs, 16 * OUTPUTS, s->material,
                                s->material_length, s->bits, OUTPUTS, answer));
}

void find_outputs(struct subject *s)
{
    uint64_t answer[4];
    run_evaluate(&workers[0], s);
    must(&workers[0], "output_tokens", weighhare_output_tokens(s->circuit, s->circuit_length, s->held, 16 * s->wires,
                                                               s->outputs, 16 * OUTPUTS, answer));
}
