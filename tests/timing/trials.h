/* The operations tried with their secrets marked, each on a circuit, beside the same call with nothing marked. */
#ifndef TRIALS_H
#define TRIALS_H

#include "circuits.h"
#include "report.h"

/* Garble with a secret seed, in several runs, to material of a mark. */
struct outcome try_garble(const struct circuit *c, uint8_t scheme, uint16_t mark);

/* Decode with secret tokens, of which each is one of its output's, by material of a mark. */
struct outcome try_decode(const struct circuit *c, uint8_t scheme, uint16_t mark);

/* Encode with secret tokens and secret values. */
struct outcome try_encode(const struct circuit *c);

/* Pick with secret tokens. */
struct outcome try_pick(void);

/* Evaluate with secret tokens: it looks AES up in tables, so memcheck must complain. */
struct outcome try_evaluate(const struct circuit *c, uint8_t scheme);

/* A look-up and a branch of this program's own, by a secret byte. */
struct outcome try_look_up(void);
struct outcome try_branch(void);

#endif
