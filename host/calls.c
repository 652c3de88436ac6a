/* The calls: see calls.h. */
#include "calls.h"

#include "arrangements.h"
#include "boards.h"
#include "books.h"
#include "faults.h"
#include "limpet.h"
#include "plans.h"
#include "reference.h"
#include "reference_board.h"
#include "reference_book.h"
#include "reference_pair.h"
#include "stretches.h"

static bool is_no_value(const struct asked *asked, uint64_t value)
{
    (void)asked;
    return value == 0;
}

static bool is_total(const struct asked *asked, uint64_t total)
{
    (void)asked;
    return total > 0;
}

static bool is_flip(const struct asked *asked, uint64_t flip)
{
    return flip >= 1 && flip <= asked->n;
}

/* A flip, and above it the bit that says that the round closed. */
static bool is_step(const struct asked *asked, uint64_t value)
{
    return is_flip(asked, value & 0xff) && value >> 8 <= 1;
}

static bool is_rank(const struct asked *asked, uint64_t rank)
{
    return rank < reference_round_total(asked->n, asked->k);
}

static bool is_pair_count(const struct asked *asked, uint64_t count)
{
    return count <= asked->count;
}

/* The n of both rows, and above it a k with which n is a size. */
static bool is_size_read(const struct asked *asked, uint64_t value)
{
    const uint64_t n = value & 0xff, k = value >> 8;
    return n == asked->lent[MODULES].length && n == asked->lent[SETTINGS].length && reference_round(n, k) == 0;
}

/* T of the entry asked for, in a book that has it. */
static uint64_t total_of_entry(const struct asked *asked)
{
    const uint8_t *const entry = asked->book.at + entry_at(asked->argument);
    return reference_round_total(entry[0], entry[1]);
}

static bool is_count_of_entry(const struct asked *asked, uint64_t count)
{
    return count >= 1 && count <= total_of_entry(asked);
}

static bool is_rank_of_entry(const struct asked *asked, uint64_t rank)
{
    return rank < total_of_entry(asked);
}

/* Of a book of the stretches listed, for which there is room. */
static bool is_length_of_book(const struct asked *asked, uint64_t length)
{
    const struct bytes ns = asked->lists[NS];
    size_t expected = entry_at(ns.length + 1);
    for (size_t i = 0; i < ns.length; i++)
        expected += ns.at[i];
    return length == expected && length <= asked->book.length;
}

const struct call round_call = {.name = "round",
                                .refusals = {1, 2, 3},
                                .library.of_sizes = limpet_round,
                                .reference.of_sizes = reference_round,
                                .fair = home,
                                .spoil = spoil_at_random,
                                .is_value = is_no_value};

const struct call total_call = {.name = "round total",
                                .refusals = {1, 2, 3},
                                .library.of_sizes = limpet_round_total,
                                .reference.of_sizes = reference_round_total,
                                .told_by = &round_call,
                                .fair = home,
                                .spoil = spoil_at_random,
                                .is_value = is_total};

const struct call check_call = {.name = "check",
                                .refusals = {1, 2, 3, 4, 5, 6, 7},
                                .library.reading = limpet_check,
                                .reference.reading = reference_check,
                                .fair = random_arrangement,
                                .spoil = spoil_at_random,
                                .is_value = is_no_value};

const struct call flip_call = {.name = "flip",
                               .refusals = {1, 2, 3, 4, 5, 6, 7, 9},
                               .library.writing = limpet_flip,
                               .reference.writing = reference_flip,
                               .fair = random_arrangement,
                               .spoil = spoil_at_random,
                               .is_value = is_no_value};

const struct call rank_call = {.name = "rank",
                               .refusals = {1, 2, 3, 4, 5, 6, 7},
                               .library.reading = limpet_rank,
                               .reference.reading = reference_rank,
                               .fair = random_arrangement,
                               .spoil = spoil_at_random,
                               .is_value = is_no_value};

const struct call value_call = {.name = "rank value",
                                .refusals = {1, 2, 3, 4, 5, 6, 7},
                                .library.reading = limpet_rank_value,
                                .reference.reading = reference_rank_value,
                                .told_by = &rank_call,
                                .fair = random_arrangement,
                                .spoil = spoil_at_random,
                                .is_value = is_rank};

const struct call unrank_call = {.name = "unrank",
                                 .refusals = {1, 2, 3, 4, 8},
                                 .library.writing = limpet_unrank,
                                 .reference.writing = reference_unrank,
                                 .fair = random_rank,
                                 .spoil = spoil_at_random,
                                 .is_value = is_no_value};

const struct call look_call = {.name = "look",
                               .refusals = {1, 2, 3, 4, 5, 6, 7},
                               .library.reading = limpet_look,
                               .reference.reading = reference_look,
                               .fair = random_arrangement,
                               .spoil = spoil_at_random,
                               .is_value = is_flip};

const struct call next_call = {.name = "next",
                               .refusals = {1, 2, 3, 4, 5, 6, 7},
                               .library.changing = limpet_next,
                               .reference.changing = reference_next,
                               .fair = random_arrangement,
                               .spoil = spoil_at_random,
                               .is_value = is_flip};

const struct call board_write_call = {.name = "board write",
                                      .refusals = {1, 2, 3, 4, 8},
                                      .library.writing = limpet_board_write,
                                      .reference.writing = reference_board_write,
                                      .fair = random_rank_of_board,
                                      .spoil = spoil_at_random,
                                      .is_value = is_no_value,
                                      .longer = {[POINTERS] = 1}};

const struct call board_step_call = {.name = "board step",
                                     .refusals = {1, 2, 3, 4, 10},
                                     .library.changing = limpet_board_step,
                                     .reference.changing = reference_board_step,
                                     .fair = random_board,
                                     .spoil = spoil_at_random,
                                     .is_value = is_step,
                                     .longer = {[POINTERS] = 1}};

const struct call board_read_call = {.name = "board read",
                                     .refusals = {1, 2, 3, 4, 10},
                                     .library.reading = limpet_board_read,
                                     .reference.reading = reference_board_read,
                                     .fair = random_board,
                                     .spoil = spoil_at_random,
                                     .is_value = is_no_value,
                                     .longer = {[POINTERS] = 1}};

const struct call board_read_rank_call = {.name = "board read rank",
                                          .refusals = {1, 2, 3, 4, 10},
                                          .library.reading = limpet_board_read_rank,
                                          .reference.reading = reference_board_read_rank,
                                          .told_by = &board_read_call,
                                          .fair = random_board,
                                          .spoil = spoil_at_random,
                                          .is_value = is_rank,
                                          .longer = {[POINTERS] = 1}};

const struct call pair_call = {.name = "pair count",
                               .refusals = {1, 2, 3, 8, 11, 12},
                               .library.counting = limpet_pair_count,
                               .reference.counting = reference_pair_count,
                               .fair = random_stretch,
                               .spoil = spoil_at_random,
                               .is_value = is_pair_count};

const struct call book_read_call = {.name = "book read",
                                    .refusals = {13, 14, 13, 1, 2, 3, 15, 16, 5, 6, 7, 18, 4},
                                    .library.from_book = limpet_book_read,
                                    .reference.from_book = reference_book_read,
                                    .fair = random_book,
                                    .spoil = spoil_random_book,
                                    .is_value = is_size_read};

const struct call book_count_call = {.name = "book count",
                                     .refusals = {13, 14, 13, 1, 2, 3, 15, 16, 5, 6, 7, 18},
                                     .library.of_book = limpet_book_count,
                                     .reference.of_book = reference_book_count,
                                     .told_by = &book_read_call,
                                     .fair = random_book,
                                     .spoil = spoil_random_book,
                                     .is_value = is_count_of_entry};

const struct call book_rank_call = {.name = "book rank",
                                    .refusals = {13, 14, 13, 1, 2, 3, 15, 16, 5, 6, 7, 18},
                                    .library.of_book = limpet_book_rank,
                                    .reference.of_book = reference_book_rank,
                                    .told_by = &book_read_call,
                                    .fair = random_book,
                                    .spoil = spoil_random_book,
                                    .is_value = is_rank_of_entry};

const struct call book_write_call = {.name = "book write",
                                     .refusals = {4, 14, 1, 2, 3, 8, 15, 4},
                                     .library.to_book = limpet_book_write,
                                     .reference.to_book = reference_book_write,
                                     .fair = random_plan,
                                     .spoil = spoil_random_plan,
                                     .is_value = is_length_of_book};

const struct call *const all_calls[CALLS] = {
    &round_call,      &total_call,      &check_call,           &flip_call,      &rank_call,
    &value_call,      &unrank_call,     &look_call,            &next_call,      &board_write_call,
    &board_step_call, &board_read_call, &board_read_rank_call, &pair_call,      &book_read_call,
    &book_count_call, &book_rank_call,  &book_write_call,
};
