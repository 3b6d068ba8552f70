/* What is measured beside the library: the same operations as the library's, on the same files, with the same refusals. */
#ifndef BASELINE_H
#define BASELINE_H

#include <stddef.h>
#include <stdint.h>

typedef uint8_t check_function(const uint8_t *, size_t, uint64_t *);
typedef uint8_t garble_function(const uint8_t *, size_t, const uint8_t *, size_t, uint64_t, uint8_t, uint16_t,
                                uint8_t *, size_t, uint8_t *, size_t, uint8_t *, size_t, uint64_t *);
typedef uint8_t evaluate_function(const uint8_t *, size_t, const uint8_t *, size_t, const uint8_t *, size_t, uint8_t *,
                                  size_t, uint64_t *);
typedef evaluate_function decode_function;

/* AES by tables (tables.c). */
check_function tables_check;
garble_function tables_garble;
evaluate_function tables_evaluate;
decode_function tables_decode;

/* AES in bit planes (fixsliced.c), which does not evaluate. */
check_function fixsliced_check;
garble_function fixsliced_garble;
decode_function fixsliced_decode;

/* AES by the processor's instructions (aesni.c). */
check_function aesni_check;
garble_function aesni_garble;
evaluate_function aesni_evaluate;
decode_function aesni_decode;

/* The library with AES by its chained steps (bench/chained); null where the program is linked without it. */
__attribute__((weak)) check_function chained_check;
__attribute__((weak)) garble_function chained_garble;
__attribute__((weak)) evaluate_function chained_evaluate;
__attribute__((weak)) decode_function chained_decode;

#endif
