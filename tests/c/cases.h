/* A file of calls and what must come back, in the machine's own byte order. A case is: operation, scheme, bit and refusal
 * due (a byte each); wire, n, m, mark, and how many lists and output buffers it has (16 bits each); the run number and
 * the width (64 bits each); four words of answer; each list (64 bits of length, its bytes); each output buffer (64 bits
 * of length, its bytes before the call, and after). */
#ifndef CASES_H
#define CASES_H

#include <stddef.h>
#include <stdint.h>
#include <stdio.h>

enum { MOST_LISTS = 4, MOST_OUTPUTS = 3 };

/* The operations, numbered as in the file. */
enum operation {
    CHECK, PLAIN, GARBLE, ENCODE, EVALUATE, EVALUATE_GATES, OUTPUT_TOKENS, DECODE, PICK, COMPARATOR, OPERATIONS
};

/* Bytes in memory of the case itself. */
struct bytes {
    uint8_t *at;
    size_t length;
};

struct call {
    uint8_t operation, scheme, bit, number;
    uint16_t wire, n, m, mark;
    uint16_t lists, outputs;
    uint64_t run, width;
    uint64_t words[4];
    struct bytes list[MOST_LISTS];
    struct bytes before[MOST_OUTPUTS], after[MOST_OUTPUTS];
};

/* Reads the next case: 1, or 0 at the end of the file. Ends the program where the file is no file of cases. */
int read_case(FILE *file, struct call *call);

/* Gives back what a case holds. */
void free_case(struct call *call);

#endif
