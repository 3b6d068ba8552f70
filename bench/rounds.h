/* The clock, and the lines that are printed. */
#ifndef ROUNDS_H
#define ROUNDS_H

#include <stddef.h>

enum { MOST_ROUNDS = 1000 };

/* Nanoseconds of this process's own time, which another process's turn does not add to. */
double now(void);

/* A line of words: time, operation, scheme, q, worker, then what each round took. */
void print_rounds(const char *operation, int scheme, size_t q, const char *worker, const double *times, unsigned rounds);

#endif
