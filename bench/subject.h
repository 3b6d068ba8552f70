/* What is measured: a circuit with all its buffers, and who works on it. */
#ifndef SUBJECT_H
#define SUBJECT_H

#include "baseline.h"

/* An implementation: the library, its other form, or a baseline. One that does not evaluate has null there. */
struct worker {
    const char *name;
    check_function *check;
    garble_function *garble;
    evaluate_function *evaluate;
    decode_function *decode;
};

/* The library, the tables, the planes, the processor's instructions where it has them, and the library's chained rounds where
 * they are linked. The first three are always there; find_workers, called once, finds the others. */
enum { MOST_WORKERS = 5 };
extern struct worker workers[MOST_WORKERS];
extern unsigned worker_count;
void find_workers(void);

/* A circuit of 128 inputs, 128 outputs and q gates, of which exactly half are charged, in random order; a gate's operands
 * are any two wires before it. With room for its material under any scheme and mark, a seed, and the run number and the
 * mark of its garblings, which are 0 and 47 48 unless they are set. */
struct subject {
    size_t q, p, wires;
    uint8_t *circuit, *material, *zeros, *ones, *tokens, *held, *outputs, *bits;
    size_t circuit_length, material_room, material_length;
    uint8_t seed[16];
    uint64_t run;
    uint16_t mark;
};

enum { INPUTS = 128, OUTPUTS = 128 };

struct subject make_subject(size_t q);

/* Turns every second free gate into one that uses one operand, of codes 3, 5, 10 and 12 by turns. What is measured has no
 * such gate. */
void use_one_operand(struct subject *s);

/* Names the outputs: as many as before, the first wire, the last, and any others, of which some come again. What is measured
 * has the mark 43 48. */
void name_outputs(struct subject *s);

void free_subject(struct subject *s);

/* The operations on the subject; each ends the program if the worker refuses. `tokens` holds a token for each input: the
 * zero or the one token, by turns, of the last garbling. */
void run_check(const struct worker *w, struct subject *s);
void run_garble(const struct worker *w, struct subject *s, uint8_t scheme);
void run_evaluate(const struct worker *w, struct subject *s);
void run_decode(const struct worker *w, struct subject *s);

/* `outputs` gets the outputs' tokens: those that the library finds for `tokens`. */
void find_outputs(struct subject *s);

/* A number below a bound, from a generator that always starts alike. */
size_t random_below(size_t bound);

#endif
