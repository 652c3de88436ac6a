/* The tests of limpet_book_write. What it writes is read back by the calls that read books. */
#include "calls.h"
#include "limpet.h"
#include "plans.h"
#include "readings.h"
#include "reference.h"

#include <string.h>

enum { AT_RANDOM = 600, SPOILT_AT_RANDOM = 10000, PLACES = 5 };

/* Has a book written into a buffer that is longer by as many bytes, which stay. */
static void expect_written(const struct call *call, const struct book *book, size_t more)
{
    struct plan plan = plan_of(book);
    plan.room += more;
    const struct asked asked = asked_to_write(&plan);
    struct asked left = asked;
    uint8_t bytes[sizeof plan.buffer];
    memcpy(bytes, plan.buffer, sizeof bytes);
    memcpy(bytes, book->bytes, book->length);
    left.book.at = bytes;
    expect(call, &asked, answered(book->length), &left);
}

/* The book that the call writes from a good plan. */
static struct book written_from(const struct call *call, const struct book *given)
{
    const struct plan plan = plan_of(given);
    struct book written = *given;
    struct asked asked = asked_to_write(&plan);
    written.length = LIMPET_VALUE(ask(call, &asked));
    memcpy(written.bytes, asked.book.at, asked.book.length);
    return written;
}

/* Reads what was written, every `step`th entry of it: each has to be as it was given. */
static void expect_read_back(const struct call *call, const struct book *given, size_t step)
{
    const struct book written = written_from(call, given);
    for (size_t entry = 1; entry <= given->entries; entry += step) {
        expect_entry(&book_read_call, &written, entry);
        expect_entry(&book_count_call, &written, entry);
        expect_entry(&book_rank_call, &written, entry);
    }
}

static void expect_plan_refused(const struct call *call, const struct plan *plan, uint64_t number,
                                uint64_t place)
{
    const struct asked asked = asked_to_write(plan);
    expect_refused(call, &asked, number, place);
}

static void by_hand(const struct call *call)
{
    for (size_t more = 0; more <= 2; more++) {
        expect_written(call, &worked_book, more);
        expect_written(call, &worked_count, more);
    }
    expect_read_back(call, &worked_book, 1);
    expect_read_back(call, &worked_count, 1);
}

/* First, in the middle and last; from both ends of the round and at random, and the least and most counts. */
static void every_size(const struct call *call, size_t n, size_t k)
{
    const uint64_t total = reference_round_total(n, k);
    const struct stretch tried[] = {{n, k, 0, 1},
                                    {n, k, 0, total},
                                    {n, k, total - 1, 1},
                                    {n, k, total - 1, total},
                                    stretch_of_size(n, k)};
    for (size_t i = 0; i < COUNT_OF(tried); i++)
        for (size_t entry = 1; entry <= 3; entry++) {
            struct book one = {.entries = 1, .stretches = {tried[i]}}, three = book_of(3);
            three.stretches[entry - 1] = tried[i];
            write_book(&one);
            write_book(&three);
            expect_written(call, &one, 0);
            expect_written(call, &three, 0);
            expect_read_back(call, &one, 1);
            expect_read_back(call, &three, 1);
        }
}

static void every_number_of_stretches(const struct call *call)
{
    for (size_t stretches = 1; stretches <= LIMPET_MOST_ENTRIES; stretches++) {
        const struct book book = book_of(stretches);
        expect_written(call, &book, 0);
        expect_read_back(call, &book, 1);
    }
}

/* From the shortest book of 64 to the longest of all. */
static void one_size(const struct call *call, size_t n, size_t k)
{
    struct book book = {.entries = LIMPET_MOST_ENTRIES};
    for (size_t i = 0; i < LIMPET_MOST_ENTRIES; i++)
        book.stretches[i] = stretch_of_size(n, k);
    write_book(&book);
    expect_written(call, &book, 0);
    expect_read_back(call, &book, 21);
}

static void random_stretches(const struct call *call)
{
    for (int times = 0; times < AT_RANDOM; times++) {
        const struct book book = book_of(1 + draw(1 + draw(LIMPET_MOST_ENTRIES)));
        expect_written(call, &book, draw(SPARE));
        expect_read_back(call, &book, 1 + draw(3));
    }
}

/* The bytes that a buffer has before matter nothing, be they a book's own. */
static void buffers(const struct call *call)
{
    for (size_t stretches = 1; stretches <= LIMPET_MOST_ENTRIES; stretches += 9) {
        const struct book book = book_of(stretches);
        struct plan plan = plan_of(&book);
        for (size_t more = 0; more < SPARE; more++)
            expect_written(call, &book, more);
        for (plan.room = 0; plan.room < book.length; plan.room++)
            expect_plan_refused(call, &plan, 4, 0);
        memcpy(plan.buffer, book.bytes, sizeof plan.buffer);
        const struct asked asked = asked_to_write(&plan);
        expect(call, &asked, answered(book.length), &asked);
    }
}

static void buffers_behind_a_page(const struct call *call)
{
    lend_at(BEHIND_PAGE);
    buffers(call);
}

/* Every length of each list alone, whatever the others have. */
static void one_list(const struct call *call)
{
    static const size_t tried[] = {1, 2, 8, 63, LIMPET_MOST_ENTRIES};
    for (size_t i = 0; i < COUNT_OF(tried); i++) {
        const struct book book = book_of(tried[i]);
        for (size_t list = 0; list < LISTS; list++)
            for (size_t length = 0; length <= 9 * LIMPET_MOST_ENTRIES; length++) {
                struct plan plan = plan_of(&book);
                const bool is_right = length == plan.lengths[list];
                plan.lengths[list] = length;
                if (!is_right)
                    expect_plan_refused(call, &plan, 4, 0);
            }
    }
}

/* Any lengths together. Of those of one number of stretches, 0 and 65 are refused too, by 14. */
static void all_lists(const struct call *call)
{
    static const size_t lengths[] = {0, 1, 2, 8, 9, 16, 17, 64, 65, 72, 512, 513, 520};
    const struct book book = book_of(LIMPET_MOST_ENTRIES);
    struct plan plan = plan_of(&book);
    size_t each = 1;
    for (size_t list = 0; list < LISTS; list++)
        each *= COUNT_OF(lengths);
    for (size_t number = 0; number < each; number++) {
        for (size_t list = 0, rest = number; list < LISTS; list++, rest /= COUNT_OF(lengths))
            plan.lengths[list] = lengths[rest % COUNT_OF(lengths)];
        const size_t stretches = plan.lengths[NS];
        const bool are_even = plan.lengths[KS] == stretches && plan.lengths[RANKS] == 8 * stretches &&
                              plan.lengths[COUNTS] == 8 * stretches;
        if (!are_even)
            expect_plan_refused(call, &plan, 4, 0);
        else if (stretches == 0 || stretches > LIMPET_MOST_ENTRIES)
            expect_plan_refused(call, &plan, 14, 0);
    }
}

/* All of them good, and with room for them all. */
static void none_or_many(const struct call *call)
{
    struct book book = book_of(LIMPET_MOST_ENTRIES);
    struct plan plan = plan_of(&book);
    plan.room = sizeof plan.buffer;
    take_stretches(&plan, 0);
    expect_plan_refused(call, &plan, 14, 0);
    for (size_t stretches = LIMPET_MOST_ENTRIES + 1; stretches <= LISTED_MOST; stretches++) {
        take_stretches(&plan, stretches);
        expect_plan_refused(call, &plan, 14, 0);
    }
}

/* Numbers of stretches of which the low bits are those of a good one. All are of n = 1, k = 1. */
static void many_more(const struct call *call)
{
    static uint8_t ones[LENT_MOST], zeros[LENT_MOST], counts[LENT_MOST];
    static uint8_t buffer[LIMPET_MOST_BOOK];
    memset(ones, 1, sizeof ones);
    for (size_t i = 0; i < sizeof counts; i += 8)
        counts[i] = 1;
    for (size_t low = 0; low <= LIMPET_MOST_ENTRIES; low++)
        for (size_t high = 1 << 9; high <= 1 << 16; high <<= 1) {
            const size_t stretches = high + low;
            const struct asked asked = {.book = {sizeof buffer, buffer},
                                        .lists = {[NS] = {stretches, ones},
                                                  [KS] = {stretches, ones},
                                                  [RANKS] = {8 * stretches, zeros},
                                                  [COUNTS] = {8 * stretches, counts}}};
            expect_refused(call, &asked, 14, 0);
        }
}

/* In a plan of one stretch, and at each of three. */
static void every_n_and_k(const struct call *call)
{
    for (size_t stretches = 1; stretches <= 3; stretches += 2) {
        struct book book = {.entries = stretches, .stretches = {{1, 1, 0, 1}, {1, 1, 0, 1}, {1, 1, 0, 1}}};
        write_book(&book);
        const struct plan good = plan_of(&book);
        for (size_t both = 0; both < 1 << 16; both++) {
            const size_t n = both & 0xff, k = both >> 8, number = 1 + both % stretches;
            struct plan plan = good;
            put_stretch(&plan, number, (struct stretch){n, k, 0, 1});
            if (reference_round(n, k) != 0) {
                expect_plan_refused(call, &plan, reference_round(n, k) & 0xff, number);
                continue;
            }
            book.stretches[number - 1] = (struct stretch){n, k, 0, 1};
            write_book(&book);
            expect_written(call, &book, 0);
            book.stretches[number - 1] = (struct stretch){1, 1, 0, 1};
        }
    }
}

/* Every n and every k of a byte that is refused, at every one of 64 stretches. */
static void every_stretch(const struct call *call)
{
    struct book book = book_of(LIMPET_MOST_ENTRIES);
    struct plan plan = plan_of(&book);
    for (size_t number = 1; number <= LIMPET_MOST_ENTRIES; number++) {
        const struct stretch good = book.stretches[number - 1];
        for (size_t byte = 0; byte <= UINT8_MAX; byte++) {
            put_stretch(&plan, number, (struct stretch){byte, good.k, good.rank, good.count});
            if (byte < 1 || byte > LIMPET_MOST_SLOTS)
                expect_plan_refused(call, &plan, 1, number);
            put_stretch(&plan, number, (struct stretch){good.n, byte, good.rank, good.count});
            if (byte < 1 || byte > LIMPET_MOST_SETTINGS)
                expect_plan_refused(call, &plan, 2, number);
        }
        put_stretch(&plan, number, good);
    }
}

/* At the first, one in the middle and the last stretch of 1, 3 and 64. */
static void ranks_and_counts(const struct call *call, size_t n, size_t k)
{
    static const size_t tried[] = {1, 3, LIMPET_MOST_ENTRIES};
    const uint64_t total = reference_round_total(n, k);
    for (size_t i = 0; i < COUNT_OF(tried); i++) {
        const struct book book = book_of(tried[i]);
        const size_t numbers[] = {1, (tried[i] + 1) / 2, tried[i]};
        for (size_t place = 0; place < COUNT_OF(numbers); place++) {
            const struct stretch good = stretch_of_size(n, k);
            struct plan plan = plan_of(&book);
            for (size_t which = 0; which < RANKS_BEYOND; which++) {
                const uint64_t rank = rank_beyond(which, good.rank, total);
                put_stretch(&plan, numbers[place], (struct stretch){n, k, rank, good.count});
                expect_plan_refused(call, &plan, 8, numbers[place]);
            }
            for (size_t which = 0; which < BAD_COUNTS; which++) {
                const uint64_t count = bad_count(which, good.count, total);
                put_stretch(&plan, numbers[place], (struct stretch){n, k, good.rank, count});
                expect_plan_refused(call, &plan, 15, numbers[place]);
            }
        }
    }
}

static void every_place(const struct call *call)
{
    for (size_t stretches = 1; stretches <= LIMPET_MOST_ENTRIES; stretches++) {
        const struct book book = book_of(stretches);
        const struct plan good = plan_of(&book);
        for (enum plan_fault fault = LISTED_N; fault <= LISTED_COUNT; fault++)
            for (size_t number = 1; number <= stretches; number++) {
                struct plan plan = good;
                spoil_plan(&plan, fault, number);
                expect_plan_refused(call, &plan, call->refusals[fault], number);
            }
    }
}

/* A fault, and the stretch that has it, which matters to a fault of a stretch alone. */
struct fault_at {
    enum plan_fault fault;
    size_t number;
};

/* The faults of stretches are tried stretch by stretch. */
static bool is_tried_first(struct fault_at a, struct fault_at b)
{
    const bool together = is_of_stretch(a.fault) && is_of_stretch(b.fault);
    return together && a.number != b.number ? a.number < b.number : a.fault < b.fault;
}

/* Where both are the same fault of no stretch it is made once: a second length may be the right one again. */
static void expect_first_of(const struct call *call, const struct plan *good, struct fault_at first,
                            struct fault_at second)
{
    struct plan plan = *good;
    if (first.fault != second.fault || is_of_stretch(first.fault))
        spoil_plan(&plan, second.fault, second.number);
    spoil_plan(&plan, first.fault, first.number);
    expect_plan_refused(call, &plan, call->refusals[first.fault],
                        is_of_stretch(first.fault) ? first.number : 0);
}

/* Stretches 1, 2, one in the middle, the last but one and the last. */
static struct fault_at fault_of_number(size_t number, size_t stretches)
{
    const size_t second = stretches == 1 ? 1 : 2, before_last = stretches == 1 ? 1 : stretches - 1;
    const size_t places[PLACES] = {1, second, (stretches + 1) / 2, before_last, stretches};
    return (struct fault_at){(enum plan_fault)(number / PLACES), places[number % PLACES]};
}

static void two_faults(const struct call *call)
{
    static const size_t tried[] = {1, 2, 3, 7, LIMPET_MOST_ENTRIES};
    for (size_t i = 0; i < COUNT_OF(tried); i++) {
        const struct book book = book_of(tried[i]);
        const struct plan good = plan_of(&book);
        for (size_t a = 0; a < PLAN_FAULTS * PLACES; a++)
            for (size_t b = 0; b < PLAN_FAULTS * PLACES; b++) {
                const struct fault_at first = fault_of_number(a, tried[i]);
                const struct fault_at second = fault_of_number(b, tried[i]);
                if (!is_tried_first(second, first))
                    expect_first_of(call, &good, first, second);
            }
    }
}

static void random_plans(const struct call *call)
{
    for (int times = 0; times < SPOILT_AT_RANDOM; times++) {
        struct asked asked = call->fair(1 + draw(LIMPET_MOST_SLOTS), 1 + draw(LIMPET_MOST_SETTINGS));
        call->spoil(call, &asked);
        ask(call, &asked);
    }
}

/* Lists of a length of which the low 32 bits are right; any of them, and all. */
static void far_lists(const struct call *call)
{
    for (unsigned lists = 1; lists < 1u << LISTS; lists++) {
        const struct book book = book_of(1 + draw(LIMPET_MOST_ENTRIES));
        const struct plan plan = plan_of(&book);
        const struct asked asked = asked_to_write(&plan);
        bool is_far[ROOMS] = {false};
        for (size_t list = 0; list < LISTS; list++)
            is_far[FIRST_LIST + list] = lists >> list & 1;
        expect_that(ask_far(call, &asked, is_far) == refused(4, 0), call, &asked, "4 for 2^32 bytes more");
    }
}

/* Of a length of which the low 32 bits alone are too few. */
static void far_buffers(const struct call *call)
{
    static const bool is_far[ROOMS] = {[BOOK] = true};
    for (size_t stretches = 1; stretches <= LIMPET_MOST_ENTRIES; stretches += 7) {
        const struct book book = book_of(stretches);
        struct plan plan = plan_of(&book);
        for (plan.room = 0; plan.room <= book.length; plan.room++) {
            const struct asked asked = asked_to_write(&plan);
            expect_that(ask_far(call, &asked, is_far) == answered(book.length), call, &asked,
                        "a book in a buffer of 2^32 bytes more");
        }
    }
}

void book_write_tests(void)
{
    static const struct test tests[] = {
        {"the books written by hand", .once = by_hand},
        {"ranks 0 and T-1, counts 1 and T, at the first, middle and last stretch", .at_every_size = every_size},
        {"books of 1 to 64 stretches, and each entry read back", .once = every_number_of_stretches},
        {"64 stretches of one size, read back", .at_every_size = one_size},
        {"random stretches, written and read back", .once = random_stretches},
        {"4 for shorter buffers of every length; the rest of longer ones stays", .once = buffers},
        {"the same buffers, lent right behind a guard page", .once = buffers_behind_a_page},
        {"4 for one list of every other length", .once = one_list},
        {"4 for lists of any lengths, and 14 before all but that", .once = all_lists},
        {"14 for no stretch, and for 65 to 320", .once = none_or_many},
        {"14 for 512 to 65,600", .once = many_more},
        {"1, 2 and 3 for every n and k of a byte", .once = every_n_and_k},
        {"1 and 2 at each of 64 stretches", .once = every_stretch},
        {"8 for ranks of T and far beyond, 15 for counts of 0, T+1 and far beyond",
         .at_every_size = ranks_and_counts},
        {"1, 2, 3, 8 and 15 at each of 1 to 64 stretches", .once = every_place},
        {"of two faults the one that is tried first", .once = two_faults},
        {"good and spoilt stretches at random", .once = random_plans},
        {"4 for lists of 2^32 bytes more", .once = far_lists},
        {"buffers of 2^32 bytes more", .once = far_buffers},
    };
    run_tests(&book_write_call, tests, COUNT_OF(tests));
}
