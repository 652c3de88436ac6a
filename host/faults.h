/* Faults to ask with: each has a call refused by one of its numbers. Books have theirs in books.h. */
#ifndef FAULTS_H
#define FAULTS_H

#include "test.h"

/* Lengths for a row of a call. Only the first is right. */
enum { LENGTHS = 6 };
size_t length_at(const struct call *call, size_t row, size_t which, size_t n);

/* The lowest slot that can have the fault of this number. */
size_t first_slot(unsigned number);

/*
 * Has the call refused by `number`, for 5, 6 and 7 at `slot`; 6 needs a slot behind the first, and 3 a
 * size that is too large from the start. Of several faults the higher numbers are made first.
 */
void spoil(const struct call *call, struct asked *asked, unsigned number, size_t slot);

/* Makes each fault of the call or leaves it out, at random. */
void spoil_at_random(const struct call *call, struct asked *asked);

#endif
