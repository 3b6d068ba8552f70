/* One circuit evaluated many times, by its bytes and by its gates already read. */
#ifndef REPEATED_H
#define REPEATED_H

#include "subject.h"

/* In each round a hundred calls of each form; which form is first changes from round to round, and `first` is the number of the
 * first round. A line for each: operation repeated, worker bytes or gates. What the two forms write is compared; the program
 * ends where it differs. */
void measure_repeated(struct subject *s, uint8_t scheme, unsigned rounds, unsigned first);

#endif
