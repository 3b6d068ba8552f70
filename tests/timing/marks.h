/* What is secret, marked for valgrind's memcheck as memory that nobody has written to. Memcheck follows each bit of it through
 * every instruction, and complains where a branch or an address depends on one: there the time can depend on a secret. */
#ifndef MARKS_H
#define MARKS_H

#include <stddef.h>

/* Whether memcheck is there to complain. */
int is_watched(void);

/* Every bit of these bytes is secret. */
void mark_secret(void *bytes, size_t length);

/* Bit 0 of each of these bytes is secret: of a value all else is known, since it is 0 or 1. */
void mark_bits(void *bytes, size_t length);

/* Nothing of these bytes is secret any longer: for comparing them. */
void mark_public(void *bytes, size_t length);

/* Whether no bit of these bytes depends on a secret, and whether each byte has a bit that does. */
int is_public(const void *bytes, size_t length);
int is_secret(const void *bytes, size_t length);

/* How often memcheck has complained so far. */
unsigned long complaints(void);

#endif
