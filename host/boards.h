/* Boards to ask with. */
#ifndef BOARDS_H
#define BOARDS_H

#include "test.h"

/* The board of a rank, which is the argument. */
struct asked board_of(size_t n, size_t k, uint64_t rank);

/* The board of random digits, many of them full, for any n of 1..20 and k of 1..8. */
struct asked random_board(size_t n, size_t k);

/* A random rank as argument, any number where no T limits it, and random bytes for a board. */
struct asked random_rank_of_board(size_t n, size_t k);

#endif
