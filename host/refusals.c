/* The tests of refusals that several calls have: see refusals.h. */
#include "refusals.h"

#include "arrangements.h"
#include "faults.h"
#include "limpet.h"
#include "reference.h"
#include "stretches.h"

static void sizes(const struct call *call)
{
    for (size_t n = 1; n <= LIMPET_MOST_SLOTS; n++)
        for (size_t k = 1; k <= LIMPET_MOST_SETTINGS; k++)
            for (size_t which = 0; which < BEYOND; which++) {
                struct asked asked = call->fair(n, k), fair = asked;
                ask(call, &fair);
                asked.k = beyond(which, k, LIMPET_MOST_SETTINGS);
                expect_refused(call, &asked, 2, 0);
                asked.n = beyond(which, n, LIMPET_MOST_SLOTS);
                expect_refused(call, &asked, 1, 0);
                asked.k = k;
                expect_refused(call, &asked, 1, 0);
            }
}

static void lengths(const struct call *call, size_t n, size_t k)
{
    for (size_t first = 0; first < LENGTHS; first++)
        for (size_t second = first == 0 ? 1 : 0; second < LENGTHS; second++) {
            struct asked asked = call->fair(n, k);
            asked.lent[0].length = length_at(call, 0, first, n);
            asked.lent[1].length = length_at(call, 1, second, n);
            expect_refused(call, &asked, 4, 0);
        }
}

static void two_faults_at_all_slots(const struct call *call, unsigned low, unsigned high)
{
    const bool too_large = low == 3 || high == 3;
    const size_t n = too_large ? 17 : 7, k = too_large ? 2 : 3;
    for (size_t low_slot = first_slot(low); low_slot <= n; low_slot++)
        for (size_t high_slot = first_slot(high); high_slot <= n; high_slot++) {
            struct asked asked = call->fair(n, k);
            spoil(call, &asked, high, high_slot);
            spoil(call, &asked, low, low_slot);
            const size_t bad_slot = low == high && high_slot < low_slot ? high_slot : low_slot;
            expect_refused(call, &asked, low, low >= 5 && low <= 7 ? bad_slot : 0);
        }
}

static void two_faults(const struct call *call)
{
    for (const unsigned *low = call->refusals; *low != 0; low++)
        for (const unsigned *high = low; *high != 0; high++)
            two_faults_at_all_slots(call, *low, *high);
}

static void random_inputs(const struct call *call)
{
    for (int times = 0; times < 50000; times++) {
        const size_t n = 1 + draw(LIMPET_MOST_SLOTS), k = 1 + draw(LIMPET_MOST_SETTINGS);
        struct asked asked = call->fair(n, k);
        call->spoil(call, &asked);
        ask(call, &asked);
    }
}

static void bad_bytes(const struct call *call, size_t n, size_t k)
{
    const struct asked good = call->fair(n, k);
    for (size_t slot = 1; slot <= n; slot++)
        for (unsigned value = 0; value <= 255; value++) {
            struct asked module = good, setting = good;
            module.lent[MODULES].bytes[slot - 1] = (uint8_t)value;
            setting.lent[SETTINGS].bytes[slot - 1] = (uint8_t)value;
            if (value == 0 || value > n)
                expect_refused(call, &module, 5, slot);
            if (value >= k)
                expect_refused(call, &setting, 7, slot);
        }
}

static void repeats(const struct call *call, size_t n, size_t k)
{
    for (size_t slot = 2; slot <= n; slot++)
        for (size_t lower = 1; lower < slot; lower++) {
            struct asked asked = call->fair(n, k);
            asked.lent[MODULES].bytes[slot - 1] = asked.lent[MODULES].bytes[lower - 1];
            expect_refused(call, &asked, 6, slot);
        }
}

static void ranks_beyond(const struct call *call, size_t n, size_t k)
{
    const uint64_t total = reference_round_total(n, k);
    for (size_t which = 0; which < RANKS_BEYOND; which++) {
        struct asked asked = call->fair(n, k);
        asked.argument = rank_beyond(which, asked.argument, total);
        expect_refused(call, &asked, 8, 0);
    }
}

static void counts_beyond(const struct call *call, size_t n, size_t k)
{
    for (size_t which = 0; which < COUNTS_BEYOND; which++) {
        struct asked asked = call->fair(n, k);
        asked.count = count_beyond(which, asked.count);
        expect_refused(call, &asked, 11, 0);
    }
}

static uint8_t take_digit(unsigned *code, unsigned base)
{
    const unsigned digit = *code % base;
    *code /= base;
    return (uint8_t)digit;
}

static void small_inputs(const struct call *call)
{
    const unsigned inputs = 5 * (6 * 6 * 6) * (4 * 4 * 4);
    for (unsigned input = 0; input < inputs; input++) {
        struct asked asked = written(2, "1:0 2:0 3:0");
        unsigned code = input;
        asked.argument = take_digit(&code, 5);
        for (size_t i = 0; i < asked.n; i++) {
            asked.lent[MODULES].bytes[i] = take_digit(&code, 6);
            asked.lent[SETTINGS].bytes[i] = take_digit(&code, 4);
        }
        ask(call, &asked);
    }
}

/* For any call: the sizes, and faults that meet. */
static void fault_tests(const struct call *call)
{
    static const struct test tests[] = {
        {"good inputs of every size; 1, 2 and 3 for bad sizes", .once = sizes},
        {"of two faults the lower number, of one number the lower slot", .once = two_faults},
        {"good and damaged inputs at random", .once = random_inputs},
    };
    run_tests(call, tests, COUNT_OF(tests));
}

/* For a call that takes a rank. */
static void rank_beyond_tests(const struct call *call)
{
    static const struct test tests[] = {
        {"8 for T, T+1 and far beyond", .at_every_size = ranks_beyond},
    };
    run_tests(call, tests, COUNT_OF(tests));
}

void length_tests(const struct call *call)
{
    static const struct test tests[] = {
        {"4 for either buffer shorter, longer or empty", .at_every_size = lengths},
    };
    run_tests(call, tests, COUNT_OF(tests));
}

void refusal_tests(const struct call *call)
{
    fault_tests(call);
    length_tests(call);
}

void rank_refusal_tests(const struct call *call)
{
    refusal_tests(call);
    rank_beyond_tests(call);
}

void stretch_refusal_tests(const struct call *call)
{
    static const struct test tests[] = {
        {"11 for a count of 65,537 and far beyond", .at_every_size = counts_beyond},
    };
    fault_tests(call);
    rank_beyond_tests(call);
    run_tests(call, tests, COUNT_OF(tests));
}

void arrangement_tests(const struct call *call)
{
    static const struct test tests[] = {
        {"5 and 7 for every module and setting out of range, at every slot", .at_every_size = bad_bytes},
        {"6 for a module that stands twice, at every two slots", .at_every_size = repeats},
        {"n = 3, k = 2 with all modules of 0..5 and settings of 0..3", .once = small_inputs},
    };
    refusal_tests(call);
    run_tests(call, tests, COUNT_OF(tests));
}
