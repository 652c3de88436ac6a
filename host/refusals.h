/* The tests of refusals that several calls have. They ask with what the call's `fair` answers. */
#ifndef REFUSALS_H
#define REFUSALS_H

#include "test.h"

/* For a call that is lent two buffers: their lengths. */
void length_tests(const struct call *call);

/* For a call that is lent two buffers: the sizes, the lengths, and faults that meet. */
void refusal_tests(const struct call *call);

/* For a call that takes a rank too: all of these, and ranks of T or more. */
void rank_refusal_tests(const struct call *call);

/* For a call that takes a stretch and is lent nothing: the sizes, ranks, counts, and faults that meet. */
void stretch_refusal_tests(const struct call *call);

/* For a call that is lent an arrangement: those of two buffers, and what is wrong with the arrangement. */
void arrangement_tests(const struct call *call);

#endif
