/* The tests of limpet_rank, limpet_rank_value and limpet_unrank. */
#include "arrangements.h"
#include "calls.h"
#include "greedy.h"
#include "reference.h"
#include "refusals.h"

/* A round above WHOLE is tried at both ends and at random. */
enum { AT_ENDS = 50, AT_RANDOM = 2000 };

/* Asks any of the three calls, knowing that the arrangement has the rank that is its argument. */
static void expect_rank(const struct call *call, const struct asked *known)
{
    struct asked asked = *known;
    if (call == &unrank_call)
        scribble(&asked);
    expect(call, &asked, is_plain(call) ? known->argument : 0, known);
}

static void expect_rank_of(const struct call *call, size_t k, uint64_t rank, const char *slots)
{
    struct asked known = written(k, slots);
    known.argument = rank;
    expect_rank(call, &known);
}

static void worked_ranks(const struct call *call)
{
    for (size_t rank = 0; rank < TOTAL_OF_TWO; rank++)
        expect_rank_of(call, 2, rank, round_of_two[rank]);
    expect_rank_of(call, 1, 0, "1:0");
    expect_rank_of(call, 3, 3, "2:1 1:0");
    expect_rank_of(call, 3, 17, "2:2 1:2");
    expect_rank_of(call, 2, 18227, "1:0 4:1 3:0 6:1 5:0 2:0");
    expect_rank_of(call, 1, 3653, "3:0 7:0 6:0 4:0 5:0 1:0 2:0");
}

static void both_ends(const struct call *call, size_t n, size_t k)
{
    const struct asked first = home(n, k), final = last(n, k);
    expect_rank(call, &first);
    expect_rank(call, &final);
}

static void greedy_order(const struct call *call, size_t n, size_t k)
{
    if (reference_round_total(n, k) <= WHOLE)
        greedy_round(call, n, k, expect_rank);
}

/* From ranks whose lowest digits are full, one of them and then one more up to all. */
static void next_ranks(const struct call *call, size_t n, size_t k)
{
    for (size_t full = 1; full <= n; full++) {
        struct asked asked = rank_with_full_digits(n, k, full);
        ask(&unrank_call, &asked);
        make_flip(&asked, flip_out_of(n, k, asked.argument));
        asked.argument = (asked.argument + 1) % reference_round_total(n, k);
        expect_rank(call, &asked);
    }
}

static uint64_t rank_tried(uint64_t which, uint64_t total)
{
    if (total <= WHOLE || which < AT_ENDS)
        return which;
    return which < 2 * AT_ENDS ? total - 1 - (which - AT_ENDS) : draw(total);
}

/* Each call is asked with the other's answer; the reference holds both. */
static void there_and_back(const struct call *call, size_t n, size_t k)
{
    const uint64_t total = reference_round_total(n, k);
    const uint64_t tried = total <= WHOLE ? total : 2 * AT_ENDS + AT_RANDOM;
    for (uint64_t which = 0; which < tried; which++) {
        struct asked asked = random_rank(n, k);
        asked.argument = rank_tried(which, total);
        ask(call, &asked);
        expect_rank(&value_call, &asked);
    }
}

static void back_and_there(const struct call *call, size_t n, size_t k)
{
    for (int times = 0; times < 100; times++) {
        struct asked asked = random_arrangement(n, k);
        asked.argument = ask(call, &asked);
        expect_rank(&unrank_call, &asked);
    }
}

void rank_tests(void)
{
    static const struct test of_each[] = {
        {"the ranks that 01 works out", .once = worked_ranks},
        {"home has rank 0, and n:k-1 .. 1:k-1 rank T-1", .at_every_size = both_ends},
        {"the whole greedy round, where T <= 50,000", .at_every_size = greedy_order},
        {"the flip that the digits name leads to the next rank", .at_every_size = next_ranks},
    };
    static const struct test of_value[] = {
        {"unrank of it leads back", .at_every_size = back_and_there},
    };
    static const struct test of_unrank[] = {
        {"rank leads back, from all ranks where T <= 50,000", .at_every_size = there_and_back},
    };
    run_tests(&rank_call, of_each, COUNT_OF(of_each));
    arrangement_tests(&rank_call);
    run_tests(&value_call, of_each, COUNT_OF(of_each));
    run_tests(&value_call, of_value, COUNT_OF(of_value));
    arrangement_tests(&value_call);
    run_tests(&unrank_call, of_each, COUNT_OF(of_each));
    run_tests(&unrank_call, of_unrank, COUNT_OF(of_unrank));
    rank_refusal_tests(&unrank_call);
}
