/* The test frame: see test.h. */
#include "test.h"

#include "limpet.h"
#include "reference.h"

#include <inttypes.h>
#include <stdio.h>
#include <string.h>

enum { FAILURES_PRINTED = 10, BYTES_PRINTED = 24, BOOK_PRINTED = 64, TEXT_PRINTED = 150 };

static unsigned passed, failed;
static unsigned long failures; /* of the running test */
static uint64_t random_state;

static void run_at_every_size(const struct call *call, const struct test *test)
{
    for (size_t n = 1; n <= LIMPET_MOST_SLOTS; n++)
        for (size_t k = 1; k <= LIMPET_MOST_SETTINGS; k++)
            if (reference_round(n, k) == 0)
                test->at_every_size(call, n, k);
}

void run_tests(const struct call *call, const struct test *tests, size_t count)
{
    for (const struct test *test = tests; test < tests + count; test++) {
        failures = 0;
        random_state = 0;
        lend_at(BEFORE_PAGE);
        if (test->once != NULL)
            test->once(call);
        else
            run_at_every_size(call, test);
        printf("%s  %s: %s\n", failures == 0 ? "ok" : "FAILED", call->name, test->name);
        *(failures == 0 ? &passed : &failed) += 1;
    }
}

int end_of_tests(void)
{
    printf("%u passed, %u failed\n", passed, failed);
    return failed == 0 ? 0 : 1;
}

bool is_plain(const struct call *call)
{
    return call->told_by != NULL;
}

uint64_t draw_word(void)
{
    random_state += 0x9e3779b97f4a7c15;
    uint64_t mixed = (random_state ^ random_state >> 30) * 0xbf58476d1ce4e5b9;
    mixed = (mixed ^ mixed >> 27) * 0x94d049bb133111eb;
    return mixed ^ mixed >> 31;
}

/* The high half of the product, which takes less time than a remainder. */
uint64_t draw(uint64_t below)
{
    __extension__ typedef unsigned __int128 wide;
    return (uint64_t)((wide)draw_word() * below >> 64);
}

size_t beyond(size_t which, size_t good, size_t most)
{
    const size_t word = (size_t)1 << 32, top = (size_t)1 << 63;
    const size_t all[BEYOND] = {0,    most + 1,    255, 256 | good, 65536 | good,
                                word, word | good, top, top | good, SIZE_MAX};
    return all[which];
}

uint64_t rank_beyond(size_t which, uint64_t good, uint64_t total)
{
    const uint64_t word = (uint64_t)1 << 32, top = (uint64_t)1 << 63; /* every T is below 2^63 */
    const uint64_t all[RANKS_BEYOND] = {total,      total + 1,   2 * total, total + word,
                                        top | good, top | total, UINT64_MAX};
    return all[which];
}

static size_t lists_of(const struct call *call)
{
    return call->library.to_book != NULL ? LISTS : 0;
}

/* memcpy and memcmp, for bytes that may be none and then nowhere. */
static void copy(uint8_t *to, const uint8_t *from, size_t length)
{
    if (length > 0)
        memcpy(to, from, length);
}

static bool are_same(const uint8_t *a, const uint8_t *b, size_t length)
{
    return length == 0 || memcmp(a, b, length) == 0;
}

/* Where what is lent to a function stands. */
struct lent {
    uint8_t *rows[ROWS], *book;
    const uint8_t *lists[LISTS];
};

static struct lent lend_all(const struct call *call, const struct asked *asked)
{
    struct lent lent = {.book = lend(BOOK, asked->book.at, asked->book.length)};
    for (size_t i = 0; i < ROWS; i++)
        lent.rows[i] = lend(i, asked->lent[i].bytes, asked->lent[i].length);
    for (size_t i = 0; i < lists_of(call); i++)
        lent.lists[i] = lend(FIRST_LIST + i, asked->lists[i].at, asked->lists[i].length);
    return lent;
}

/* The rows of `known` itself, a copy of its book, which it then has, and the lists where they are. */
static struct lent lend_to_reference(struct asked *known)
{
    static uint8_t book[LENT_MOST];
    struct lent lent = {.book = book};
    copy(book, known->book.at, known->book.length);
    known->book.at = book;
    for (size_t i = 0; i < ROWS; i++)
        lent.rows[i] = known->lent[i].bytes;
    for (size_t i = 0; i < LISTS; i++)
        lent.lists[i] = known->lists[i].at;
    return lent;
}

/* Reads back what was lent to the library; false where a byte beside it, or of a list, was written. */
static bool take_back(const struct call *call, const struct lent *lent, struct asked *came)
{
    static uint8_t book[LENT_MOST];
    bool is_whole = are_guards_whole(BOOK, came->book.length);
    copy(book, lent->book, came->book.length);
    came->book.at = book;
    for (size_t i = 0; i < ROWS; i++) {
        copy(came->lent[i].bytes, lent->rows[i], came->lent[i].length);
        is_whole = are_guards_whole(i, came->lent[i].length) && is_whole;
    }
    for (size_t i = 0; i < lists_of(call); i++)
        is_whole = are_guards_whole(FIRST_LIST + i, came->lists[i].length) &&
                   are_same(lent->lists[i], came->lists[i].at, came->lists[i].length) && is_whole;
    return is_whole;
}

static uint64_t apply(const struct function *function, const struct asked *asked, const struct lent *lent)
{
    const size_t first = asked->lent[0].length, second = asked->lent[1].length;
    uint8_t *const *const rows = lent->rows;
    const struct pair pair = asked->pair;
    if (function->of_sizes != NULL)
        return function->of_sizes(asked->n, asked->k);
    if (function->reading != NULL)
        return function->reading(asked->n, asked->k, rows[0], first, rows[1], second);
    if (function->changing != NULL)
        return function->changing(asked->n, asked->k, rows[0], first, rows[1], second);
    if (function->counting != NULL)
        return function->counting(asked->n, asked->k, asked->argument, asked->count, pair.v, pair.c, pair.w,
                                  pair.e);
    if (function->of_book != NULL)
        return function->of_book(lent->book, asked->book.length, asked->argument);
    if (function->from_book != NULL)
        return function->from_book(lent->book, asked->book.length, asked->argument, rows[0], first, rows[1],
                                   second);
    if (function->to_book != NULL)
        return function->to_book(lent->lists[NS], asked->lists[NS].length, lent->lists[KS],
                                 asked->lists[KS].length, lent->lists[RANKS], asked->lists[RANKS].length,
                                 lent->lists[COUNTS], asked->lists[COUNTS].length, lent->book,
                                 asked->book.length);
    return function->writing(asked->n, asked->k, asked->argument, rows[0], first, rows[1], second);
}

/* What a call came to, or is known to come to. */
struct outcome {
    uint64_t answer;
    bool guards_whole;
    const struct asked *left;
};

static void print_bytes(const uint8_t *bytes, size_t length, size_t most)
{
    printf(" | %zu bytes", length);
    for (size_t i = 0; i < length && i < most; i++)
        printf(" %u", bytes[i]);
}

static void print_left(const struct asked *left)
{
    if (left->book.length > 0)
        print_bytes(left->book.at, left->book.length, BOOK_PRINTED);
    for (const struct row *row = left->lent; row < left->lent + ROWS; row++)
        print_bytes(row->bytes, row->length, BYTES_PRINTED);
    printf("\n");
}

static void print_asked(const struct call *call, const struct asked *asked)
{
    printf("  asked     %s n=%zu k=%zu argument=%zu", call->name, asked->n, asked->k, asked->argument);
    if (call->library.counting != NULL)
        printf(" count=%" PRIu64 " pair=%zu:%zu,%zu:%zu", asked->count, asked->pair.v, asked->pair.c,
               asked->pair.w, asked->pair.e);
    for (size_t i = 0; i < lists_of(call); i++)
        print_bytes(asked->lists[i].at, asked->lists[i].length, BYTES_PRINTED);
    print_left(asked);
}

static bool is_left_same(const struct asked *a, const struct asked *b)
{
    bool same = are_same(a->book.at, b->book.at, a->book.length);
    for (size_t i = 0; i < ROWS; i++)
        same = same && are_same(a->lent[i].bytes, b->lent[i].bytes, a->lent[i].length);
    return same;
}

/* Counts a failure where the two differ; the first few of a test are printed. */
static void hold(const struct call *call, const struct asked *asked, struct outcome came,
                 struct outcome known)
{
    const bool same = came.answer == known.answer && came.guards_whole && is_left_same(came.left, known.left);
    if (same || ++failures > FAILURES_PRINTED)
        return;
    print_asked(call, asked);
    printf("  came      answer 0x%" PRIx64, came.answer);
    print_left(came.left);
    printf("  expected  answer 0x%" PRIx64, known.answer);
    print_left(known.left);
    printf("%s", came.guards_whole ? "" : "  a byte beside a lent buffer or of a list was written\n");
}

void expect_that(bool holds, const struct call *call, const struct asked *asked, const char *what)
{
    if (holds || ++failures > FAILURES_PRINTED)
        return;
    print_asked(call, asked);
    printf("  expected  %s\n", what);
}

uint64_t ask(const struct call *call, struct asked *asked)
{
    struct asked came = *asked, known = *asked;
    const struct lent to_library = lend_all(call, asked), to_reference = lend_to_reference(&known);
    const uint64_t answer = apply(&call->library, asked, &to_library);
    const uint64_t known_answer = apply(&call->reference, asked, &to_reference);
    const bool guards_whole = take_back(call, &to_library, &came);
    hold(call, asked, (struct outcome){answer, guards_whole, &came},
         (struct outcome){known_answer, true, &known});
    if (call->library.to_book == NULL)
        came.book = asked->book;
    *asked = came;
    return answer;
}

static uint8_t *lend_near_or_far(size_t room, const uint8_t *bytes, size_t *length, bool is_far,
                                 bool is_written)
{
    uint8_t *const lent = is_far ? lend_far(room, bytes, *length, is_written) : lend(room, bytes, *length);
    *length += is_far ? FAR_MORE : 0;
    return lent;
}

uint64_t ask_far(const struct call *call, const struct asked *asked, const bool is_far[ROOMS])
{
    struct asked far = *asked;
    struct lent lent = {.book = lend_near_or_far(BOOK, asked->book.at, &far.book.length, is_far[BOOK],
                                                 call->library.to_book != NULL)};
    for (size_t i = 0; i < ROWS; i++)
        lent.rows[i] = lend_near_or_far(i, asked->lent[i].bytes, &far.lent[i].length, is_far[i], false);
    for (size_t i = 0; i < lists_of(call); i++)
        lent.lists[i] = lend_near_or_far(FIRST_LIST + i, asked->lists[i].at, &far.lists[i].length,
                                         is_far[FIRST_LIST + i], false);
    return apply(&call->library, &far, &lent);
}

void expect(const struct call *call, const struct asked *asked, uint64_t answer, const struct asked *left)
{
    struct asked came = *asked;
    const unsigned long failures_before = failures;
    const struct outcome outcome = {ask(call, &came), true, &came};
    if (failures == failures_before)
        hold(call, asked, outcome, (struct outcome){answer, true, left});
}

void expect_line(const char *came, const char *known)
{
    if (came == NULL && known == NULL)
        return;
    if ((came == NULL || known == NULL || strcmp(came, known) != 0) && ++failures <= FAILURES_PRINTED)
        printf("  came      %s\n  expected  %s\n", came == NULL ? "nothing" : came,
               known == NULL ? "nothing" : known);
}

/* The start of the first line in which two texts differ. */
static size_t first_difference(struct text a, struct text b)
{
    size_t start = 0;
    for (size_t i = 0; i < a.length && i < b.length && a.bytes[i] == b.bytes[i]; i++)
        if (a.bytes[i] == '\n')
            start = i + 1;
    return start;
}

static void print_text(const char *label, struct text text, size_t from)
{
    printf("  %-9s ", label);
    for (size_t i = from; i < text.length && i < from + TEXT_PRINTED; i++)
        printf(text.bytes[i] >= ' ' && text.bytes[i] <= '~' ? "%c" : "\\x%02x", (unsigned char)text.bytes[i]);
    printf("%s\n", from < text.length ? "" : "nothing");
}

void expect_text(struct text asked, struct text came, struct text known)
{
    const bool same = came.length == known.length && memcmp(came.bytes, known.bytes, known.length) == 0;
    if (same || ++failures > FAILURES_PRINTED)
        return;
    print_text("asked", asked, 0);
    print_text("came", came, first_difference(came, known));
    print_text("expected", known, first_difference(came, known));
}

void expect_refused(const struct call *call, const struct asked *asked, uint64_t number, uint64_t place)
{
    expect(call, asked, is_plain(call) ? 0 : refused(number, place), asked);
}
