/* One circuit evaluated many times. */
#include "repeated.h"

#include <stdio.h>
#include <stdlib.h>
#include <string.h>

#include "files.h"
#include "rounds.h"
#include "weighhare.h"

enum { CALLS = 100 };

static weighhare_gate *read_gates(const struct subject *s)
{
    weighhare_gate *gates = calloc(s->q, sizeof *gates);
    if (gates == NULL)
        exit(2);
    for (size_t i = 0; i < s->q; i++) {
        const uint8_t *record = s->circuit + 8 + 7 * i;
        gates[i].a = (uint16_t)number16(record + 2);
        gates[i].b = (uint16_t)number16(record + 4);
        gates[i].code = record[6];
    }
    return gates;
}

static void run_gates(struct subject *s, const weighhare_gate *gates)
{
    uint64_t answer[4];
    if (weighhare_evaluate_gates(INPUTS, OUTPUTS, gates, s->q, s->tokens, 16 * INPUTS, s->material, s->material_length,
                                 s->held, 16 * s->wires, answer) != 0)
        exit(1);
}

/* That both forms write the same. */
static void agree_on_forms(struct subject *s, const weighhare_gate *gates)
{
    uint8_t *by_bytes = malloc(16 * s->wires);
    if (by_bytes == NULL)
        exit(2);
    run_evaluate(&workers[0], s);
    memcpy(by_bytes, s->held, 16 * s->wires);
    memset(s->held, 0, 16 * s->wires);
    run_gates(s, gates);
    if (memcmp(by_bytes, s->held, 16 * s->wires) != 0) {
        fputs("bench: evaluate by bytes and by gates differ\n", stderr);
        exit(1);
    }
    free(by_bytes);
}

/* The two forms: by the circuit's bytes, and by its gates already read. */
enum form { BYTES, GATES, FORMS };
static const char *const form_names[FORMS] = {"bytes", "gates"};

/* The time of one call for a charged gate, the mean of a hundred. */
static double time_of(struct subject *s, const weighhare_gate *gates, enum form form)
{
    double start = now();
    for (int i = 0; i < CALLS; i++) {
        if (form == BYTES)
            run_evaluate(&workers[0], s);
        else
            run_gates(s, gates);
    }
    return (now() - start) / CALLS / (double)s->p;
}

void measure_repeated(struct subject *s, uint8_t scheme, unsigned rounds, unsigned first)
{
    static double times[FORMS][MOST_ROUNDS];
    weighhare_gate *gates = read_gates(s);
    run_garble(&workers[0], s, scheme);
    agree_on_forms(s, gates);
    for (unsigned round = 0; round < rounds; round++) {
        for (unsigned turn = 0; turn < FORMS; turn++) {
            enum form form = (first + round + turn) % FORMS;
            times[form][round] = time_of(s, gates, form);
        }
    }
    for (int form = BYTES; form < FORMS; form++)
        print_rounds("repeated", scheme, s->q, form_names[form], times[form], rounds);
    free(gates);
}
