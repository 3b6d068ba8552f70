/* One call of the archive's C function for a case. */
#ifndef ENTER_H
#define ENTER_H

#include "cases.h"
#include "lend.h"

/* Calls the function on the lists and the output buffers lent, in the order of its arguments. */
uint8_t enter(const struct call *call, const struct lent *in, const struct lent *out, uint64_t answer[4]);

#endif
