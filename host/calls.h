/* The calls of limpet.h, each beside its reference, as tests and benchmark ask them. */
#ifndef CALLS_H
#define CALLS_H

#include "test.h"

extern const struct call round_call, total_call, check_call, flip_call, rank_call, value_call, unrank_call,
    look_call, next_call, board_write_call, board_step_call, board_read_call, board_read_rank_call,
    pair_call, book_read_call, book_count_call, book_rank_call, book_write_call;

/* All of them. The name of each is that in limpet.h, with spaces. */
enum { CALLS = 18 };
extern const struct call *const all_calls[CALLS];

#endif
