/* The circuits that are tried: every code of a gate, both marks, the least and the last wire, free gates alone, and several
 * numbers of inputs and of charged gates, since both may be worked on four at a time. */
#ifndef CIRCUITS_H
#define CIRCUITS_H

#include <stddef.h>
#include <stdint.h>

struct circuit {
    const char *name;
    uint8_t *bytes;
    size_t length;
    uint64_t sizes[4]; /* n, m, q, p, as weighhare_check answers */
};

/* How many there are, and circuit i of them. The program ends where the library refuses it. */
extern const size_t circuit_count;
struct circuit make_circuit(size_t i);

void free_circuit(struct circuit *c);

#endif
