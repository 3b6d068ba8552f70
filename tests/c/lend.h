/* Buffers of exactly the bytes lent, placed so that a touch of anything else is noticed.
 *
 * A sanitizer watches the code that it compiled, and the archive is not among it. So the first two places stand between
 * pages that nobody may touch, and the processor itself stops the archive there; a list that is only lent for reading is on
 * a page that nobody may write to. The third place is the heap, for the sanitizer's and valgrind's own watch. */
#ifndef LEND_H
#define LEND_H

#include <stddef.h>
#include <stdint.h>

enum place { BEFORE_A_WALL, AFTER_A_WALL, ON_THE_HEAP, PLACES };

struct lent {
    uint8_t *at;
    size_t length;
    uint8_t *memory; /* all that was taken for it */
    size_t taken;
    enum place place;
};

/* A copy of the bytes at that place, which may be written to only if so said. */
struct lent lend(enum place place, const uint8_t *bytes, size_t length, int writable);

/* Gives the memory back. */
void take_back(struct lent *lent);

#endif
