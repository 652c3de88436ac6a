/* The tests of limpet_look and limpet_next. */
#include "arrangements.h"
#include "calls.h"
#include "greedy.h"
#include "reference.h"
#include "refusals.h"

enum { BEFORE_END = 3, AFTER_END = 3, AT_RANDOM = 300 };

/* The arrangement of the rank. */
static struct asked at_rank(size_t n, size_t k, uint64_t rank)
{
    struct asked asked = {.n = n, .k = k, .argument = rank};
    asked.lent[MODULES].length = asked.lent[SETTINGS].length = n;
    reference_unrank(n, k, rank, asked.lent[MODULES].bytes, n, asked.lent[SETTINGS].bytes, n);
    return asked;
}

/* Asks either call, knowing that the arrangement has the rank that is its argument. */
static void expect_flip(const struct call *call, const struct asked *known)
{
    const size_t n = known->n, k = known->k;
    const uint64_t rank = known->argument;
    const struct asked next = at_rank(n, k, (rank + 1) % reference_round_total(n, k));
    expect(call, known, answered(flip_out_of(n, k, rank)), call == &next_call ? &next : known);
}

/* Asks either call where the test itself knows the flip and what it leads to. */
static void expect_worked(const struct call *call, size_t k, size_t flip, const char *before,
                          const char *after)
{
    const struct asked asked = written(k, before), next = written(k, after);
    expect(call, &asked, answered(flip), call == &next_call ? &next : &asked);
}

static void worked_flips(const struct call *call)
{
    for (size_t rank = 0; rank < TOTAL_OF_TWO; rank++)
        expect_worked(call, 2, 1 + rank % 2, round_of_two[rank], round_of_two[(rank + 1) % TOTAL_OF_TWO]);
    expect_worked(call, 1, 1, "1:0", "1:0");
    expect_worked(call, 3, 2, "2:2 1:2", "1:0 2:0");
    expect_worked(call, 2, 2, "1:0 4:1 3:0 6:1 5:0 2:0", "4:0 1:1 3:0 6:1 5:0 2:0");
    expect_worked(call, 1, 4, "3:0 7:0 6:0 4:0 5:0 1:0 2:0", "4:0 6:0 7:0 3:0 5:0 1:0 2:0");
}

static void greedy_order(const struct call *call, size_t n, size_t k)
{
    if (reference_round_total(n, k) <= WHOLE)
        greedy_round(call, n, k, expect_flip);
}

/* Each step begins with what the call left, and the reference of unrank knows where it stands. */
static void walk_round(const struct call *call, size_t n, size_t k)
{
    const uint64_t total = reference_round_total(n, k);
    struct asked at = home(n, k);
    for (uint64_t rank = 0; total <= WHOLE && rank < total; rank++) {
        at.argument = rank;
        expect_flip(call, &at);
        ask(call, &at); /* which leaves what the call left */
    }
}

static void across_the_end(const struct call *call, size_t n, size_t k)
{
    const uint64_t total = reference_round_total(n, k);
    for (uint64_t step = 0; step < BEFORE_END + AFTER_END; step++) {
        const struct asked asked = at_rank(n, k, (total - BEFORE_END % total + step) % total);
        expect_flip(call, &asked);
    }
}

static void any_rank(const struct call *call, size_t n, size_t k)
{
    for (size_t which = 0; which < n + AT_RANDOM; which++) {
        const struct asked rank = which < n ? rank_with_full_digits(n, k, which + 1) : random_rank(n, k);
        const struct asked asked = at_rank(n, k, rank.argument);
        expect_flip(call, &asked);
    }
}

void look_tests(void)
{
    static const struct test of_each[] = {
        {"the flips that 01 works out", .once = worked_flips},
        {"the whole greedy round, where T <= 50,000", .at_every_size = greedy_order},
        {"the ranks T-3 to 2, across the end of the round", .at_every_size = across_the_end},
        {"ranks with every number of full digits, and at random", .at_every_size = any_rank},
    };
    static const struct test of_next[] = {
        {"the whole round from home on, where T <= 50,000", .at_every_size = walk_round},
    };
    run_tests(&look_call, of_each, COUNT_OF(of_each));
    arrangement_tests(&look_call);
    run_tests(&next_call, of_each, COUNT_OF(of_each));
    run_tests(&next_call, of_next, COUNT_OF(of_next));
    arrangement_tests(&next_call);
}
