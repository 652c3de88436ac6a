/* The tests of limpet_flip. */
#include "arrangements.h"
#include "calls.h"
#include "refusals.h"

static void expect_flip(const struct call *call, size_t k, size_t j, const char *before, const char *after)
{
    struct asked asked = written(k, before);
    const struct asked known = written(k, after);
    asked.argument = j;
    expect(call, &asked, 0, &known);
}

static void worked_flips(const struct call *call)
{
    expect_flip(call, 3, 4, "7:0 1:2 6:1 5:0 3:1 4:1 2:1", "5:1 6:2 1:0 7:1 3:1 4:1 2:1");
    expect_flip(call, 3, 2, "2:2 1:2", "1:0 2:0");
    expect_flip(call, 1, 1, "1:0", "1:0");
}

static void flips_of_two(const struct call *call)
{
    for (size_t rank = 0; rank < TOTAL_OF_TWO; rank++)
        expect_flip(call, 2, 1 + rank % 2, round_of_two[rank], round_of_two[(rank + 1) % TOTAL_OF_TWO]);
}

static void lengths(const struct call *call, size_t n, size_t k)
{
    const size_t near = n + 3; /* the lengths 0..n + 2, and then those beyond */
    for (size_t which = 0; which < near + BEYOND; which++) {
        struct asked asked = random_arrangement(n, k);
        const size_t j = which < near ? which : beyond(which - near, asked.argument, n);
        asked.argument = j;
        if (j == 0 || j > n)
            expect_refused(call, &asked, 9, 0);
        else
            ask(call, &asked);
    }
}

/* An even number of reversals, and k divides the number of times that a setting is raised by one. */
static void back_after_2k(const struct call *call, size_t n, size_t k)
{
    for (size_t j = 1; j <= n; j++) {
        struct asked asked = random_arrangement(n, k);
        asked.argument = j;
        const struct asked start = asked;
        for (size_t flip = 1; flip < 2 * k; flip++)
            ask(call, &asked);
        expect(call, &asked, 0, &start);
    }
}

void flip_tests(void)
{
    static const struct test tests[] = {
        {"the flips that 01 works out", .once = worked_flips},
        {"the round of n = 2, k = 2 by flips 1 and 2", .once = flips_of_two},
        {"every length of 1..n, and 9 for every other", .at_every_size = lengths},
        {"2k flips of one length lead back", .at_every_size = back_after_2k},
    };
    run_tests(&flip_call, tests, COUNT_OF(tests));
    arrangement_tests(&flip_call);
}
