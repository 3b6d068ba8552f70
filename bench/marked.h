/* Garble and decode with either mark of the material, by the library. */
#ifndef MARKED_H
#define MARKED_H

#include "subject.h"

/* In each round some calls with each mark; which is first changes from round to round, and `first` is the number of the
 * first round. Lines: operations garble-marked, for a charged gate, and decode-marked, for an output; worker colours or
 * hashes. */
void measure_marked(struct subject *s, uint8_t scheme, unsigned rounds, unsigned first);

#endif
