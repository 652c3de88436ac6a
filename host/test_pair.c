/* The tests of limpet_pair_count. */
#include "arrangements.h"
#include "calls.h"
#include "limpet.h"
#include "reference.h"
#include "refusals.h"
#include "stretches.h"

enum { BEFORE_END = 3, FEW = 8, AT_RANDOM = 20, SMALL_SLOTS = 3, SMALL_SETTINGS = 3 };

static bool is_small(size_t n, size_t k)
{
    return n <= SMALL_SLOTS && k <= SMALL_SETTINGS;
}

/* The rank from which 3 steps lead home: T-3, where there are as many. */
static uint64_t before_end(uint64_t total)
{
    return (total - BEFORE_END % total) % total;
}

static void expect_count(const struct call *call, const struct asked *asked, uint64_t count)
{
    expect(call, asked, answered(count), asked);
}

static void worked_counts(const struct call *call)
{
    struct asked asked = {.n = 2, .k = 2, .count = TOTAL_OF_TWO, .pair = {1, 0, 2, 0}};
    expect_count(call, &asked, 1);
    asked.count = TOTAL_OF_TWO + 1;
    expect_count(call, &asked, 2);
}

/* From the last arrangement, n:k-1 .. 1:k-1, to home. */
static void last_and_home(const struct call *call, size_t n, size_t k)
{
    struct asked asked = {.n = n, .k = k, .argument = reference_round_total(n, k) - 1};
    for (; n > 1 && asked.count <= 2; asked.count++) {
        asked.pair = (struct pair){n, k - 1, n - 1, k - 1};
        expect_count(call, &asked, asked.count >= 1);
        asked.pair = (struct pair){1, 0, 2, 0};
        expect_count(call, &asked, asked.count >= 2);
    }
}

/* Every arrangement has n-1 pairs in it, so that what the last pair counts is known from the others. */
static void every_pair_over(const struct call *call, struct asked asked)
{
    const size_t pairs = pairs_of(asked.n, asked.k);
    uint64_t left = (asked.n - 1) * asked.count;
    for (size_t number = 0; number < pairs; number++) {
        asked.pair = pair_of_number(number, asked.n, asked.k);
        if (number == pairs - 1)
            expect_count(call, &asked, left);
        else
            left -= LIMPET_VALUE(ask(call, &asked));
    }
}

static void every_pair(const struct call *call, size_t n, size_t k)
{
    const uint64_t rank = before_end(reference_round_total(n, k));
    every_pair_over(call, (struct asked){.n = n, .k = k, .argument = rank, .count = FEW});
}

static void small_rounds(const struct call *call, size_t n, size_t k)
{
    const uint64_t total = reference_round_total(n, k);
    for (uint64_t rank = 0; is_small(n, k) && rank < total; rank++) {
        every_pair_over(call, (struct asked){.n = n, .k = k, .argument = rank, .count = total});
        every_pair_over(call, (struct asked){.n = n, .k = k, .argument = rank, .count = 2 * total + 3});
    }
}

/* In a whole round a pair stands in each of n-1 slots with every arrangement of the other modules. */
static void whole_round(const struct call *call, size_t n, size_t k)
{
    const uint64_t total = reference_round_total(n, k);
    struct asked asked = random_stretch(n, k);
    asked.count = total;
    if (n > 1 && total <= WHOLE)
        expect_count(call, &asked, (n - 1) * (n == 2 ? 1 : reference_round_total(n - 2, k)));
}

/* From T-3 on, with a pair that stands in one of the arrangements. */
static struct asked stretch_across(size_t n, size_t k, uint64_t count)
{
    const uint64_t total = reference_round_total(n, k), rank = before_end(total);
    struct asked asked = stretch_of(n, k, (rank + draw(count + 1)) % total, count);
    asked.argument = rank;
    return asked;
}

static void across_the_end(const struct call *call, size_t n, size_t k)
{
    for (uint64_t count = 0; count < SHORT; count++) {
        struct asked asked = stretch_across(n, k, count);
        ask(call, &asked);
    }
}

static void any_stretch(const struct call *call, size_t n, size_t k)
{
    for (size_t which = 0; which < n + AT_RANDOM; which++) {
        const struct asked rank = which < n ? rank_with_full_digits(n, k, which + 1) : random_rank(n, k);
        struct asked asked = stretch_of(n, k, rank.argument, draw(SHORT));
        ask(call, &asked);
    }
}

static void longest(const struct call *call)
{
    static const struct {
        size_t n, k;
    } sizes[] = {{2, 1}, {3, 2}, {20, 1}, {16, 2}, {11, 8}};
    for (size_t i = 0; i < COUNT_OF(sizes); i++) {
        const size_t n = sizes[i].n, k = sizes[i].k;
        struct asked any = longest_stretch(n, k), across = stretch_across(n, k, LIMPET_MOST_COUNTED);
        ask(call, &any);
        ask(call, &across);
    }
}

/* From home, no flip of so few is longer than 9. */
static void in_all(const struct call *call)
{
    const struct asked asked = {.n = 20, .k = 1, .count = LIMPET_MOST_COUNTED, .pair = {19, 0, 20, 0}};
    expect_count(call, &asked, LIMPET_MOST_COUNTED);
}

static void bad_pairs(const struct call *call, size_t n, size_t k)
{
    for (size_t which = 0; which < BAD_PAIRS; which++) {
        struct asked asked = random_stretch(n, k);
        asked.pair = bad_pair(which, asked.pair, n, k);
        expect_refused(call, &asked, 12, 0);
    }
}

/* All pairs of 0..n+1 and 0..k, of which n = 1 has no good one. */
static void pairs_around(const struct call *call, size_t n, size_t k)
{
    struct asked asked = random_stretch(n, k);
    struct pair *pair = &asked.pair;
    if (!is_small(n, k))
        return;
    for (pair->v = 0; pair->v <= n + 1; pair->v++)
        for (pair->c = 0; pair->c <= k; pair->c++)
            for (pair->w = 0; pair->w <= n + 1; pair->w++)
                for (pair->e = 0; pair->e <= k; pair->e++)
                    if (n == 1)
                        expect_refused(call, &asked, 12, 0);
                    else
                        ask(call, &asked);
}

void pair_tests(void)
{
    static const struct test tests[] = {
        {"the counts that 01 works out", .once = worked_counts},
        {"0, 1 and 2 arrangements from rank T-1 on", .at_every_size = last_and_home},
        {"every pair over 8 from rank T-3 on: n-1 to an arrangement", .at_every_size = every_pair},
        {"the same over T and 2T+3 from every rank, for n and k of 1..3", .at_every_size = small_rounds},
        {"a whole round, where T <= 50,000", .at_every_size = whole_round},
        {"0 to 63 arrangements from rank T-3 on", .at_every_size = across_the_end},
        {"from ranks with every number of full digits, and at random", .at_every_size = any_stretch},
        {"65,536 arrangements, many rounds of them and across the end", .once = longest},
        {"a pair that stands in all of 65,536", .once = in_all},
        {"12 for each number of a pair out of range, and for one module twice", .at_every_size = bad_pairs},
        {"all pairs of 0..n+1 and 0..k, for n and k of 1..3", .at_every_size = pairs_around},
    };
    run_tests(&pair_call, tests, COUNT_OF(tests));
    stretch_refusal_tests(&pair_call);
}
