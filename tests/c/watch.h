/* What is said when a page that nobody may touch is touched, and the trial that this works. */
#ifndef WATCH_H
#define WATCH_H

#include "lend.h"

/* The case under way, for what is said. */
extern unsigned long case_under_way;

/* From now on a touch of a forbidden page is told and ends the program with status 1. */
void watch(void);

/* Tries the watch at a place in processes of their own: a read past the buffer, before it, a write to a list lent for
 * reading. 1 if each that the place can notice was noticed. */
int watch_works(enum place place);

#endif
