/* The tests of limpet_round and limpet_round_total, and of the macros that take an answer apart. */
#include "calls.h"
#include "limpet.h"

__extension__ typedef unsigned __int128 wide;

_Static_assert(LIMPET_NUMBER(0xfedcba987654f705) == 5, "bits 0 to 7");
_Static_assert(LIMPET_PLACE(0xfedcba987654f705) == 0xf7, "bits 8 to 15");
_Static_assert(LIMPET_VALUE(0xfedcba987654f705) == 0xfedcba987654, "bits 16 and up");
_Static_assert(LIMPET_FLIP(0xfedcba987654f705) == 0x54, "bits 16 to 23");
_Static_assert(LIMPET_CLOSED(0x1000000) == 1 && LIMPET_CLOSED(0xfedcba98feffffff) == 0, "bit 24");
_Static_assert(LIMPET_N(0xfedcba987654f705) == 0x54, "bits 16 to 23");
_Static_assert(LIMPET_K(0xfedcba987654f705) == 0x76, "bits 24 to 31");

/* The sizes 0..SMALL, and then those beyond. */
enum { SMALL = 24, TRIED = SMALL + 1 + BEYOND };

static size_t size_at(size_t which, size_t good, size_t most)
{
    return which <= SMALL ? which : beyond(which - SMALL - 1, good, most);
}

static void all_sizes(const struct call *call)
{
    for (size_t first = 0; first < TRIED; first++)
        for (size_t second = 0; second < TRIED; second++) {
            struct asked asked = {.n = size_at(first, 5, LIMPET_MOST_SLOTS),
                                  .k = size_at(second, 3, LIMPET_MOST_SETTINGS)};
            ask(call, &asked);
        }
}

static void named_sizes(const struct call *call)
{
    static const struct {
        size_t n, k;
        unsigned number;
    } cases[] = {
        {20, 1, 0}, {16, 2, 0}, {14, 3, 0}, {12, 7, 0}, {11, 8, 0}, /* 01: permitted */
        {17, 2, 3}, {15, 3, 3}, {14, 4, 3}, {12, 8, 3},             /* 01: refused by 3 */
        {1, 1, 0},  {20, 8, 3}, {0, 1, 1},  {0, 0, 1},  {21, 1, 1}, {21, 9, 1}, {1, 0, 2}, {1, 9, 2},
        {256 + 5, 3, 1}, {((size_t)1 << 32) + 5, 3, 1}, {(size_t)1 << 63, 3, 1}, {SIZE_MAX, 9, 1},
        {5, 256 + 3, 2}, {5, ((size_t)1 << 32) + 3, 2}, {5, (size_t)1 << 63, 2}, {20, SIZE_MAX, 2},
    };
    for (size_t i = 0; i < COUNT_OF(cases); i++) {
        const struct asked asked = {.n = cases[i].n, .k = cases[i].k};
        expect_refused(call, &asked, cases[i].number, 0);
    }
}

static void expect_total(const struct call *call, size_t n, size_t k, uint64_t total)
{
    const struct asked asked = {.n = n, .k = k};
    expect(call, &asked, total, &asked);
}

static void named_totals(const struct call *call)
{
    expect_total(call, 1, 1, 1);
    expect_total(call, 2, 2, 8);
    expect_total(call, 2, 3, 18);
    expect_total(call, 3, 3, 162);
    expect_total(call, 17, 2, 0);
}

static void wide_totals(const struct call *call)
{
    for (size_t k = 1; k <= LIMPET_MOST_SETTINGS; k++) {
        wide total = 1;
        for (size_t n = 1; n <= LIMPET_MOST_SLOTS; n++) {
            total *= k * n;
            expect_total(call, n, k, total > UINT64_MAX ? 0 : (uint64_t)total);
        }
    }
}

void sizes_tests(void)
{
    static const struct test of_round[] = {
        {"every n and k of 0..24, and far beyond", .once = all_sizes},
        {"the sizes that 01 names, and their edges", .once = named_sizes},
    };
    static const struct test of_total[] = {
        {"every n and k of 0..24, and far beyond", .once = all_sizes},
        {"the totals that 01 names", .once = named_totals},
        {"every size to the largest of each k, and 0 above, by 128 bits", .once = wide_totals},
    };
    run_tests(&round_call, of_round, COUNT_OF(of_round));
    run_tests(&total_call, of_total, COUNT_OF(of_total));
}
