/* Stretches and pairs to ask with. */
#ifndef STRETCHES_H
#define STRETCHES_H

#include "test.h"

/*
 * The stretch of a rank and a count, and a pair that stands in the arrangement of its first rank, at random
 * and most often near the front. The one slot of n = 1 makes a pair that is refused.
 */
struct asked stretch_of(size_t n, size_t k, uint64_t rank, uint64_t count);

/* A stretch of fewer than SHORT from a random rank, which is any number where no T limits it. */
enum { SHORT = 64 };
struct asked random_stretch(size_t n, size_t k);

/* A stretch of the most that are counted, from a random rank. */
struct asked longest_stretch(size_t n, size_t k);

/* How many pairs of two modules at permitted settings there are, and the pair of each number below that. */
size_t pairs_of(size_t n, size_t k);
struct pair pair_of_number(size_t number, size_t n, size_t k);

/* The counts that may stand for `good` and are refused. */
enum { COUNTS_BEYOND = 7 };
uint64_t count_beyond(size_t which, uint64_t good);

/* The pairs that may stand for `good` and are refused. */
enum { BAD_PAIRS = 4 * BEYOND + 1 };
struct pair bad_pair(size_t which, struct pair good, size_t n, size_t k);

#endif
