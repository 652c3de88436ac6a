/*
 * The tests of limpet_book_read, limpet_book_count and limpet_book_rank. Each good book that they meet is also
 * written again by limpet_book_write: see readings.c.
 */
#include "books.h"
#include "calls.h"
#include "limpet.h"
#include "readings.h"
#include "reference.h"
#include "refusals.h"

#include <string.h>

enum { AT_RANDOM = 20000, MOST_DAMAGE = 3, PLACES = 5, FAR = 1 << 16 };

/* Asks for a random entry of what isn't a good book. */
static void expect_book_refused(const struct call *call, const struct book *book, uint64_t number,
                                uint64_t place)
{
    const struct asked asked = asked_for(book, 1 + draw(book->entries));
    expect_refused(call, &asked, number, place);
}

static void by_hand(const struct call *call)
{
    expect_every_entry(call, &worked_book);
}

static void long_count_by_hand(const struct call *call)
{
    expect_every_entry(call, &worked_count);
}

/* First, in the middle and last; from both ends of the round and at random, and the least and most counts. */
static void every_size(const struct call *call, size_t n, size_t k)
{
    const uint64_t total = reference_round_total(n, k);
    const struct stretch tried[] = {{n, k, 0, 1},
                                    {n, k, 0, total},
                                    {n, k, total - 1, 1},
                                    {n, k, total - 1, total},
                                    stretch_of_size(n, k)};
    for (size_t i = 0; i < COUNT_OF(tried); i++)
        for (size_t entry = 1; entry <= 3; entry++) {
            struct book one = {.entries = 1, .stretches = {tried[i]}}, three = book_of(3);
            three.stretches[entry - 1] = tried[i];
            write_book(&one);
            write_book(&three);
            expect_every_entry(call, &one);
            expect_every_entry(call, &three);
        }
}

static void every_number_of_entries(const struct call *call)
{
    for (size_t entries = 1; entries <= LIMPET_MOST_ENTRIES; entries++) {
        const struct book book = book_of(entries);
        expect_every_entry(call, &book);
    }
}

/* 64 entries of one size: from the shortest book of 64 to the longest of all. */
static void one_size(const struct call *call, size_t n, size_t k)
{
    struct book book = {.entries = LIMPET_MOST_ENTRIES};
    for (size_t i = 0; i < LIMPET_MOST_ENTRIES; i++)
        book.stretches[i] = stretch_of_size(n, k);
    write_book(&book);
    for (size_t entry = 1; entry <= LIMPET_MOST_ENTRIES; entry += 21)
        expect_entry(call, &book, entry);
}

static void cuts(const struct call *call)
{
    for (size_t entries = 1; entries <= LIMPET_MOST_ENTRIES; entries++) {
        const struct book book = book_of(entries);
        struct book cut = book;
        for (cut.length = 0; cut.length < book.length; cut.length++)
            expect_book_refused(call, &cut, cut.length < entry_at(entries + 1) ? 13 : 16, 0);
    }
}

static void longer(const struct call *call)
{
    static uint8_t bytes[LIMPET_MOST_BOOK + FAR];
    for (size_t entries = 1; entries <= LIMPET_MOST_ENTRIES; entries++) {
        struct book book = book_of(entries);
        struct asked far = asked_for(&book, 1 + draw(entries));
        memcpy(bytes, book.bytes, book.length);
        far.book = (struct bytes){book.length + FAR, bytes};
        expect_refused(call, &far, 16, 0);
        for (size_t more = 0; more < SPARE; more++) {
            book.length++;
            expect_book_refused(call, &book, 16, 0);
        }
    }
}

static void shortest(const struct call *call)
{
    uint8_t bytes[2];
    for (unsigned both = 0; both < 1 << 16; both++) {
        struct asked asked = {.argument = 1, .book = {sizeof bytes, bytes}};
        put_number(bytes, sizeof bytes, both);
        const bool good = bytes[0] == 1 && bytes[1] >= 1 && bytes[1] <= LIMPET_MOST_ENTRIES;
        expect_refused(call, &asked, good ? 13 : 14, 0);
        asked.book.length = both % 2;
        expect_refused(call, &asked, 13, 0);
    }
}

/* Every n and k that a byte can hold, in books of one entry that are as long as they say. */
static void every_n_and_k(const struct call *call)
{
    struct book book = {.entries = 1, .stretches = {{LIMPET_MOST_SLOTS, 1, 0, 1}}};
    write_book(&book);
    for (unsigned both = 0; both < 1 << 16; both++) {
        const size_t n = both & 0xff, k = both >> 8;
        put_number(book.bytes + entry_at(1), 2, both);
        book.length = entry_at(2) + (n <= LIMPET_MOST_SLOTS ? n : LIMPET_MOST_SLOTS);
        book.stretches[0] = (struct stretch){n <= LIMPET_MOST_SLOTS ? n : 1, k, 0, 1};
        if (reference_round(n, k) == 0)
            expect_entry(call, &book, 1);
        else
            expect_book_refused(call, &book, reference_round(n, k) & 0xff, 1);
    }
}

/* In each of three entries. */
static void offsets_and_counts(const struct call *call, size_t n, size_t k)
{
    const uint64_t total = reference_round_total(n, k);
    for (size_t entry = 1; entry <= 3; entry++) {
        struct book good = book_of(3);
        good.stretches[entry - 1] = stretch_of_size(n, k);
        write_book(&good);
        uint8_t *const bytes = good.bytes + entry_at(entry);
        for (size_t which = 0; which < BAD_OFFSETS; which++) {
            put_number(bytes + 2, 4, bad_offset(which, body_at(&good, entry)));
            expect_book_refused(call, &good, 15, entry);
        }
        write_book(&good);
        for (size_t which = 0; which < BAD_COUNTS; which++) {
            put_number(bytes + 6, 8, bad_count(which, good.stretches[entry - 1].count, total));
            expect_book_refused(call, &good, 15, entry);
        }
    }
}

/* A book whose bytes are asked for as they are, by every entry it has and by the two beside them. */
static void ask_every_entry(const struct call *call, const struct book *book)
{
    for (size_t entry = 0; entry <= book->entries + 1; entry++) {
        struct asked asked = asked_for(book, entry == 0 || entry > book->entries ? 1 : entry);
        asked.argument = entry;
        ask_reading(call, &asked);
    }
}

static void every_byte(const struct call *call)
{
    static const struct book small[] = {
        {.entries = 1, .stretches = {{1, 1, 0, 1}}},
        {.entries = 1, .stretches = {{3, 2, 40, 48}}},
        {.entries = 2, .stretches = {{2, 2, 6, 3}, {3, 8, 3000, 3071}}},
        {.entries = 3, .stretches = {{2, 3, 17, 1}, {1, 8, 7, 8}, {4, 1, 23, 2}}},
    };
    for (size_t i = 0; i < COUNT_OF(small); i++) {
        struct book book = small[i];
        write_book(&book);
        for (size_t at = 0; at < book.length; at++) {
            const uint8_t good = book.bytes[at];
            for (unsigned value = 0; value <= 255; value++) {
                book.bytes[at] = (uint8_t)value;
                ask_every_entry(call, &book);
            }
            book.bytes[at] = good;
        }
    }
}

/* To the values around it, to those with one of its bits changed, and to both ends. */
static void every_byte_of_any_size(const struct call *call, size_t n, size_t k)
{
    struct book book = {.entries = 1, .stretches = {stretch_of_size(n, k)}};
    write_book(&book);
    for (size_t at = 0; at < book.length; at++) {
        const uint8_t good = book.bytes[at];
        for (unsigned which = 0; which < 12; which++) {
            const unsigned values[] = {0, 255, good + 1u, good + 255u};
            book.bytes[at] = (uint8_t)(which < 4 ? values[which] : good ^ 1u << (which - 4));
            ask_every_entry(call, &book);
        }
        book.bytes[at] = good;
    }
}

static void every_body_of_two(const struct call *call)
{
    static const size_t settings[] = {1, 3, 8};
    for (size_t i = 0; i < COUNT_OF(settings); i++) {
        struct book book = {.entries = 1, .stretches = {{2, settings[i], 0, 1}}};
        write_book(&book);
        for (unsigned body = 0; body < 1 << 16; body++) {
            struct asked asked = asked_for(&book, 1);
            put_number(book.bytes + body_at(&book, 1), 2, body);
            ask_reading(call, &asked);
        }
    }
}

/* Of at least two slots and fewer than 8 settings in each entry, so that every fault can be made. */
static struct book spoilable_book(size_t entries)
{
    struct book book = {.entries = entries};
    for (size_t i = 0; i < entries; i++)
        book.stretches[i] = stretch_of_size(2 + draw(10), 1 + draw(7));
    write_book(&book);
    return book;
}

/* Whichever entry is asked for. */
static void bad_bodies(const struct call *call)
{
    for (enum fault fault = BAD_MODULE; fault <= BAD_SETTING; fault++)
        for (size_t bad = 1; bad <= LIMPET_MOST_ENTRIES; bad++) {
            struct book book = spoilable_book(LIMPET_MOST_ENTRIES);
            spoil_book(&book, fault, bad);
            for (size_t entry = 1; entry <= LIMPET_MOST_ENTRIES; entry++) {
                const struct asked asked = asked_for(&book, entry);
                expect_refused(call, &asked, call->refusals[fault], bad);
            }
        }
}

static void entries_beyond(const struct call *call)
{
    for (size_t entries = 1; entries <= LIMPET_MOST_ENTRIES; entries++) {
        const struct book book = book_of(entries);
        for (size_t which = 0; which < BEYOND; which++) {
            struct asked asked = asked_for(&book, 1 + draw(entries));
            asked.argument = beyond(which, asked.argument, entries);
            expect_refused(call, &asked, 18, 0);
        }
    }
}

/* Both buffers of the n of another entry than the one asked for. */
static void length_of_another(const struct call *call)
{
    const struct book book = book_of(LIMPET_MOST_ENTRIES);
    for (size_t entry = 1; entry <= book.entries; entry++)
        for (size_t other = 1; other <= book.entries; other++) {
            struct asked asked = asked_for(&book, other);
            asked.argument = entry;
            if (book.stretches[other - 1].n != book.stretches[entry - 1].n)
                expect_refused(call, &asked, 4, 0);
        }
}

/* A fault, and the entry that has it, which matters to a fault of an entry alone. */
struct fault_at {
    enum fault fault;
    size_t entry;
};

static bool is_of_entry(struct fault_at at)
{
    return is_of_contents(at.fault) || is_of_body(at.fault);
}

/* The faults of contents are tried entry by entry, and so are those of bodies. */
static bool is_tried_first(struct fault_at a, struct fault_at b)
{
    const bool together =
        (is_of_contents(a.fault) && is_of_contents(b.fault)) || (is_of_body(a.fault) && is_of_body(b.fault));
    return together && a.entry != b.entry ? a.entry < b.entry : a.fault < b.fault;
}

static void expect_first_of(const struct call *call, size_t entries, struct fault_at first,
                            struct fault_at second)
{
    struct book book = spoilable_book(entries);
    spoil_book(&book, second.fault, second.entry);
    spoil_book(&book, first.fault, first.entry);
    struct asked asked = asked_for(&book, 1 + draw(entries));
    spoil_asked(&asked, second.fault, entries);
    spoil_asked(&asked, first.fault, entries);
    expect_refused(call, &asked, call->refusals[first.fault], is_of_entry(first) ? first.entry : 0);
}

/* Entries 1, 2, one in the middle, the last but one and the last. */
static struct fault_at fault_of_number(size_t number, size_t entries)
{
    const size_t second = entries == 1 ? 1 : 2, before_last = entries == 1 ? 1 : entries - 1;
    const size_t places[PLACES] = {1, second, (entries + 1) / 2, before_last, entries};
    return (struct fault_at){(enum fault)(number / PLACES), places[number % PLACES]};
}

static void two_faults(const struct call *call)
{
    static const size_t tried[] = {1, 2, 3, 7, LIMPET_MOST_ENTRIES};
    const size_t faults = is_plain(call) ? BAD_LENGTH : FAULTS; /* a plain call is lent no row */
    for (size_t i = 0; i < COUNT_OF(tried); i++)
        for (size_t a = 0; a < faults * PLACES; a++)
            for (size_t b = 0; b < faults * PLACES; b++) {
                const struct fault_at first = fault_of_number(a, tried[i]);
                const struct fault_at second = fault_of_number(b, tried[i]);
                if (!is_tried_first(second, first))
                    expect_first_of(call, tried[i], first, second);
            }
}

static void random_damage(const struct call *call)
{
    for (int times = 0; times < AT_RANDOM; times++) {
        struct book book = book_of(1 + draw(1 + draw(LIMPET_MOST_ENTRIES)));
        for (uint64_t damage = draw(MOST_DAMAGE + 1); damage > 0; damage--) {
            uint8_t *byte = &book.bytes[draw(2) == 0 ? draw(book.length) : draw(entry_at(2))];
            *byte = (uint8_t)(draw(2) == 0 ? draw(256) : *byte ^ 1u << draw(8));
        }
        if (draw(8) == 0)
            book.length = draw(book.length + SPARE);
        struct asked asked = asked_for(&book, 1 + draw(book.entries));
        asked.argument += draw(8) == 0;
        ask_reading(call, &asked);
    }
}

void book_tests(void)
{
    static const struct call *const calls[] = {&book_read_call, &book_count_call, &book_rank_call};
    static const struct test tests[] = {
        {"a book written by hand", .once = by_hand},
        {"a count of eight bytes, by hand", .once = long_count_by_hand},
        {"first, middle and last entries of every size, to both ends", .at_every_size = every_size},
        {"every entry of books of 1 to 64", .once = every_number_of_entries},
        {"64 entries of one size", .at_every_size = one_size},
        {"13 and 16 for books of 1 to 64 entries cut at every length", .once = cuts},
        {"16 for 1 to 300 bytes more, and 65,536", .once = longer},
        {"13 and 14 for all books of up to two bytes", .once = shortest},
        {"1, 2 and 3 for every n and k of a byte", .once = every_n_and_k},
        {"15 for offsets and counts beside the good one and far off", .at_every_size = offsets_and_counts},
        {"small books with one byte changed to every value", .once = every_byte},
        {"any one byte changed a little", .at_every_size = every_byte_of_any_size},
        {"all bodies of two bytes", .once = every_body_of_two},
        {"5, 6 and 7 for a bad body, whichever entry is asked for", .once = bad_bodies},
        {"18 for entry 0, E+1 and far beyond", .once = entries_beyond},
        {"of two faults the one that 01 tries first", .once = two_faults},
        {"good and damaged books at random", .once = random_damage},
    };
    static const struct test of_read[] = {
        {"4 for the length of another entry", .once = length_of_another},
    };
    for (size_t i = 0; i < COUNT_OF(calls); i++)
        run_tests(calls[i], tests, COUNT_OF(tests));
    run_tests(&book_read_call, of_read, COUNT_OF(of_read));
    length_tests(&book_read_call);
}
