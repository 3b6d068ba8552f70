/* That the others do the library's work: the same answers and the same bytes. */
#ifndef AGREE_H
#define AGREE_H

#include "subject.h"

/* Garbles, evaluates and decodes by every worker, with either mark of the material, and compares all that is written;
 * ends the program where they differ. */
void agree_on(struct subject *s);

/* The same on so many calls with one bit of an argument changed, where most are refused, with every bit of the circuit's
 * header, its mark among them, with every scheme byte, and with marks of the material that are none. */
void agree_on_damage(unsigned calls);

/* Both with each of four run numbers other than 0. */
void agree_on_runs(unsigned calls);

/* Both on a circuit in which half of the free gates use one operand. */
void agree_on_one_operand(unsigned calls);

/* Both on a circuit whose outputs are named, with every bit of its first and its last output record too. */
void agree_on_named(unsigned calls);

#endif
