/* The circuit and the material as files: their sizes, the circuit's outputs, and their refusals (1 to 7, 25, 26 and 12 to 18), for
 * the baselines in C. */
#ifndef FILES_H
#define FILES_H

#include <stddef.h>
#include <stdint.h>

struct sizes {
    size_t n, m, q, p;
};

/* A big-endian number of 2 bytes. */
static inline unsigned number16(const uint8_t *at)
{
    return (unsigned)at[0] << 8 | at[1];
}

/* Whether the outputs are named, by the mark 43 49: then m output records stand after the gates. */
static inline unsigned is_named(const uint8_t *circuit)
{
    return circuit[1] == 0x49;
}

/* The wire of output i, counted from 0, of an accepted circuit: the one named, or one of the last m. */
static inline size_t output_wire(const uint8_t *circuit, const struct sizes *z, size_t i)
{
    return is_named(circuit) ? number16(circuit + 8 + 7 * z->q + 4 * i + 2) : z->n + z->q - z->m + 1 + i;
}

/* Whether a code is charged: 1, 2, 4, 7, 8, 11, 13, 14. */
static inline unsigned is_charged(unsigned code)
{
    return code < 16 && (0x6996u >> code & 1u);
}

/* Whether a code is free: 3, 5, 6, 9, 10, 12. */
static inline unsigned is_free(unsigned code)
{
    return code < 16 && (0x1668u >> code & 1u);
}

/* A free gate's value is pu ⊕ qv ⊕ c for a=u and b=v. p is 1 for 3, 6, 9, 12; q for 5, 6, 9, 10; c for 3, 5, 9. */
static inline unsigned free_p(unsigned code)
{
    return 0x1248u >> code & 1u;
}

static inline unsigned free_q(unsigned code)
{
    return 0x0660u >> code & 1u;
}

static inline unsigned free_c(unsigned code)
{
    return 0x0228u >> code & 1u;
}

/* The rows of a charged gate. */
static inline size_t rows_of(unsigned scheme)
{
    return scheme < 3 ? 5 - scheme : 2;
}

/* Whether material ends in hashes, by the mark 47 4A. With 47 48 it ends in colours. */
static inline unsigned is_hashed(const uint8_t *material)
{
    return material[1] == 0x4A;
}

/* What the last record has for each output: a colour, or two hashes. */
static inline size_t output_bytes(unsigned hashed)
{
    return hashed ? 32 : 1;
}

/* The material's length, 11+m+p(4+16r), with hashes 11+32m+p(4+16r). */
static inline size_t material_length(const struct sizes *z, unsigned scheme, unsigned hashed)
{
    return 11 + z->m * output_bytes(hashed) + z->p * (4 + 16 * rows_of(scheme));
}

/* Refusals 1 to 7, 25 and 26: the number, or 0 and the sizes. */
unsigned check_circuit(const uint8_t *circuit, size_t length, struct sizes *z, uint64_t *place);

/* Refusals 12 to 18 of material for an accepted circuit. */
unsigned check_material(const uint8_t *circuit, const struct sizes *z, const uint8_t *material, size_t length,
                        uint64_t *place);

#endif
