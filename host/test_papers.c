/*
 * The tests of what the papers 000 to 004 print of the walker's order, as they print it: docs/PAPERS.md lists
 * it place by place, with what the other tests hold. A paper's colour or sign is a setting here, and its
 * ranks count from 1.
 */
#include "arrangements.h"
#include "boards.h"
#include "calls.h"
#include "limpet.h"
#include "listings.h"
#include "reference.h"

#include <inttypes.h>
#include <stdio.h>
#include <stdlib.h>
#include <string.h>

enum { MOST_PRINTED = 162, CLOSED = 1 << 8 };

static void expect_number(const char *what, uint64_t came, uint64_t known)
{
    char came_line[LINE_MOST], known_line[LINE_MOST];
    snprintf(came_line, sizeof came_line, "%s %" PRIu64, what, came);
    snprintf(known_line, sizeof known_line, "%s %" PRIu64, what, known);
    expect_line(came_line, known_line);
}

/* From slots as printed, up to what is none: 3, or -3 for setting 1, or 3:2 for a 3 with a colour. */
static struct asked printed(size_t k, const char *slots)
{
    struct asked asked = {.k = k};
    char *rest = NULL;
    for (long module; module = strtol(slots, &rest, 10), rest != slots; slots = rest) {
        const long setting = *rest == ':' ? strtol(rest + 1, &rest, 10) : module < 0;
        asked.lent[MODULES].bytes[asked.n] = (uint8_t)labs(module);
        asked.lent[SETTINGS].bytes[asked.n] = (uint8_t)setting;
        asked.n++;
    }
    asked.lent[MODULES].length = asked.lent[SETTINGS].length = asked.n;
    return asked;
}

/* Asks the calls that go from arrangement to rank and back; the rank is the argument. */
static void expect_rank(const struct asked *known)
{
    struct asked asked = *known;
    scribble(&asked);
    expect(&value_call, known, known->argument, known);
    expect(&unrank_call, &asked, 0, known);
}

/* A place of a listing: an arrangement with its rank as argument, and the flip out of it. */
struct place {
    struct asked at;
    size_t flip;
};
static struct place places[MOST_PRINTED + 1];

static void expect_step(const struct place *place, const struct asked *next)
{
    const struct asked *at = &place->at;
    const struct asked board = board_of(at->n, at->k, at->argument);
    const struct asked next_board = board_of(at->n, at->k, next->argument);
    const uint64_t closed = next->argument == 0 ? CLOSED : 0;
    expect_rank(at);
    expect(&look_call, at, answered(place->flip), at);
    expect(&next_call, at, answered(place->flip), next);
    expect(&board_step_call, &board, answered(place->flip | closed), &next_board);
}

/* Holds calls and listing to the first `steps` places, whose last flip leads to the place after them. */
static void expect_places(size_t steps)
{
    static struct listing listing;
    begin_listing(&listing, places->at.n, places->at.k, steps);
    for (const struct place *place = places; place < places + steps; place++) {
        expect_step(place, &place[1].at);
        put_arrangement(&listing, &place->at, place->flip);
    }
    expect_written_listing(&listing);
}

/* Reads the places from cells in rows, down each column and then to the right. */
static void read_cells(size_t k, const char *const *cells, size_t count, size_t columns)
{
    for (size_t rank = 0, rows = count / columns; rank < count; rank++) {
        const char *cell = cells[rank % rows * columns + rank / rows], *flip = strchr(cell, '(');
        places[rank].at = printed(k, cell);
        places[rank].at.argument = rank;
        places[rank].flip = flip == NULL ? 0 : strtoul(flip + 1, NULL, 10);
    }
}

static void expect_round(size_t k, const char *const *cells, size_t count, size_t columns)
{
    read_cells(k, cells, count, columns);
    places[count] = places[0];
    expect_places(count);
}

/* 002, example 3.1; 004, example 4.1; and in one column 003, table 1, minimum flips for n = 4. */
static const char *const round_of_four[] = {
    "1 2 3 4 (2)", "4 1 2 3 (2)", "3 4 1 2 (2)", "2 3 4 1 (2)",
    "2 1 3 4 (3)", "1 4 2 3 (3)", "4 3 1 2 (3)", "3 2 4 1 (3)",
    "3 1 2 4 (2)", "2 4 1 3 (2)", "1 3 4 2 (2)", "4 2 3 1 (2)",
    "1 3 2 4 (3)", "4 2 1 3 (3)", "3 1 4 2 (3)", "2 4 3 1 (3)",
    "2 3 1 4 (2)", "1 2 4 3 (2)", "4 1 3 2 (2)", "3 4 2 1 (2)",
    "3 2 1 4 (4)", "2 1 4 3 (4)", "1 4 3 2 (4)", "4 3 2 1 (4)",
};

/* 004, example 5.1; and 002, example 4.1, where the copy at hand lost three minus signs. */
static const char *const round_of_three[] = {
    "1 2 3 (1)",   "-3 1 2 (1)",  "-2 -3 1 (1)", "-1 -2 -3 (1)", "3 -1 -2 (1)",  "2 3 -1 (1)",
    "-1 2 3 (2)",  "3 1 2 (2)",   "2 -3 1 (2)",  "1 -2 -3 (2)",  "-3 -1 -2 (2)", "-2 3 -1 (2)",
    "-2 1 3 (1)",  "-1 -3 2 (1)", "3 -2 1 (1)",  "2 -1 -3 (1)",  "1 3 -2 (1)",   "-3 2 -1 (1)",
    "2 1 3 (2)",   "1 -3 2 (2)",  "-3 -2 1 (2)", "-2 -1 -3 (2)", "-1 3 -2 (2)",  "3 2 -1 (2)",
    "-1 -2 3 (1)", "3 -1 2 (1)",  "2 3 1 (1)",   "1 2 -3 (1)",   "-3 1 -2 (1)",  "-2 -3 -1 (1)",
    "1 -2 3 (2)",  "-3 -1 2 (2)", "-2 3 1 (2)",  "-1 2 -3 (2)",  "3 1 -2 (2)",   "2 -3 -1 (2)",
    "2 -1 3 (1)",  "1 3 2 (1)",   "-3 2 1 (1)",  "-2 1 -3 (1)",  "-1 -3 -2 (1)", "3 -2 -1 (1)",
    "-2 -1 3 (3)", "-1 3 2 (3)",  "3 2 1 (3)",   "2 1 -3 (3)",   "1 -3 -2 (3)",  "-3 -2 -1 (3)",
};

static void rounds(const struct call *call)
{
    (void)call;
    expect_round(1, round_of_four, COUNT_OF(round_of_four), 4);
    expect_round(2, round_of_three, COUNT_OF(round_of_three), 6);
}

/*
 * 000 and 001, example 2, n = 3 and k = 3: the modules, and the flips in the same order. The copies at hand
 * lost the colours, so that the settings are the reference's; that of 001 has other rows and columns too.
 */
enum { LINES = 18, COLUMNS = 9, CELL = 4, OF_EXAMPLE = 3 };
static const char *const example_2[LINES] = {
    "123 312 231 123 312 231 123 312 231 111111111",
    "123 312 231 123 312 231 123 312 231 111111111",
    "123 312 231 123 312 231 123 312 231 222222222",
    "213 132 321 213 132 321 213 132 321 111111111",
    "213 132 321 213 132 321 213 132 321 111111111",
    "213 132 321 213 132 321 213 132 321 222222222",
    "123 312 231 123 312 231 123 312 231 111111111",
    "123 312 231 123 312 231 123 312 231 111111111",
    "123 312 231 123 312 231 123 312 231 222222222",
    "213 132 321 213 132 321 213 132 321 111111111",
    "213 132 321 213 132 321 213 132 321 111111111",
    "213 132 321 213 132 321 213 132 321 222222222",
    "123 312 231 123 312 231 123 312 231 111111111",
    "123 312 231 123 312 231 123 312 231 111111111",
    "123 312 231 123 312 231 123 312 231 222222222",
    "213 132 321 213 132 321 213 132 321 111111111",
    "213 132 321 213 132 321 213 132 321 111111111",
    "213 132 321 213 132 321 213 132 321 333333333",
};

static void round_without_settings(const struct call *call)
{
    const size_t n = OF_EXAMPLE, k = OF_EXAMPLE;
    (void)call;
    for (size_t rank = 0; rank < LINES * COLUMNS; rank++) {
        const char *line = example_2[rank % LINES];
        const size_t column = rank / LINES;
        struct asked *at = &places[rank].at;
        *at = home(n, k);
        at->argument = rank;
        reference_unrank(n, k, rank, at->lent[MODULES].bytes, n, at->lent[SETTINGS].bytes, n);
        for (size_t i = 0; i < n; i++)
            at->lent[MODULES].bytes[i] = (uint8_t)(line[column * CELL + i] - '0');
        places[rank].flip = (size_t)(line[COLUMNS * CELL + column] - '0');
    }
    places[LINES * COLUMNS] = places[0];
    expect_places(LINES * COLUMNS);
}

/*
 * 002, section 1, the first and the third order for n = 4. A slip: with the first it prints the flips
 * 2, 3, 2, 3, 2, 3, 4, but its arrangements, which are held here, need 2, 3, 2, 3, 2, 4.
 */
static void openings(const struct call *call)
{
    static const char *const of_one[] = {"1 2 3 4 (2)", "2 1 3 4 (3)", "3 1 2 4 (2)", "1 3 2 4 (3)",
                                         "2 3 1 4 (2)", "3 2 1 4 (4)", "4 1 2 3"};
    static const char *const of_two[] = {"1 2 3 4 (1)",  "-1 2 3 4 (2)", "-2 1 3 4 (1)",
                                         "2 1 3 4 (2)",  "-1 -2 3 4 (1)", "1 -2 3 4 (2)",
                                         "2 -1 3 4 (1)", "-2 -1 3 4 (3)", "-3 1 2 4"};
    (void)call;
    read_cells(1, of_one, COUNT_OF(of_one), 1);
    expect_places(COUNT_OF(of_one) - 1);
    read_cells(2, of_two, COUNT_OF(of_two), 1);
    expect_places(COUNT_OF(of_two) - 1);
}

/* Each example with what its recursion leads to. */
static void ranks(const struct call *call)
{
    static const struct {
        size_t k;
        uint64_t printed_rank;
        const char *slots;
    } cases[] = {
        /* 002, sections 3.1 and 3.2 */
        {1, 435, "2 6 1 4 5 3"}, {1, 75, "5 3 4 1 2"}, {1, 3, "3 1 2 4"}, {1, 3, "3 1 2"}, {1, 1, "1 2"},
        {1, 1, "1"},
        /* 002, sections 4.1 and 4.2 */
        {2, 18228, "1 -4 3 -6 5 2"}, {2, 2868, "5 2 -1 4 -3"}, {2, 180, "2 -4 3 1"}, {2, 36, "-1 3 -2"},
        {2, 4, "2 1"}, {2, 2, "-1"},
        /* 000, examples 5 and 6, and 001, examples 4 and 5; the settings are those of the products printed */
        {3, 138, "1:0 3:1 2:2"}, {3, 12, "2:1 1:1"}, {3, 3, "1:2"},
    };
    (void)call;
    for (size_t i = 0; i < COUNT_OF(cases); i++) {
        struct asked known = printed(cases[i].k, cases[i].slots);
        known.argument = cases[i].printed_rank - 1;
        expect_rank(&known);
    }
}

static void flips(const struct call *call)
{
    static const struct {
        size_t k, j;
        const char *before, *after;
    } cases[] = {
        /* 000 and 001, section 1.1 */
        {1, 2, "3 4 2 1", "4 3 2 1"}, {2, 2, "-2 -1 3 4", "1 2 3 4"},
        {3, 2, "2:1 1:2 3:0 4:0", "1:0 2:2 3:0 4:0"},
        /* 000 and 001, section 1.3 */
        {3, 1, "1:1 2:2", "1:2 2:2"}, {3, 2, "1:1 2:2", "2:0 1:2"},
        {1, 4, "1 2 3 4 5 6 7 8", "4 3 2 1 5 6 7 8"},
        /* 004, section 1 */
        {2, 3, "-1 3 -4 -2 5", "4 -3 1 -2 5"},
    };
    (void)call;
    for (size_t i = 0; i < COUNT_OF(cases); i++) {
        struct asked asked = printed(cases[i].k, cases[i].before);
        const struct asked known = printed(cases[i].k, cases[i].after);
        asked.argument = cases[i].j;
        expect(&flip_call, &asked, 0, &known);
    }
}

/* The slots in reverse, and behind them the modules that are missing, at setting 0. */
static struct asked reversed_and_filled(size_t n, struct asked slots)
{
    struct asked asked = home(n, slots.k);
    uint8_t *modules = asked.lent[MODULES].bytes, *settings = asked.lent[SETTINGS].bytes;
    size_t filled = 0;
    for (; filled < slots.n; filled++) {
        modules[filled] = slots.lent[MODULES].bytes[slots.n - 1 - filled];
        settings[filled] = slots.lent[SETTINGS].bytes[slots.n - 1 - filled];
    }
    for (uint8_t module = 1; filled < n; module++)
        if (memchr(modules, module, filled) == NULL)
            modules[filled++] = module;
    return asked;
}

/*
 * Slots that a paper calls increasing, or says not to be. They are exactly where in reverse they make a
 * prefix that falls, which is to say that the flip is no shorter than they are.
 */
static void increasing(const struct call *call)
{
    static const struct {
        size_t n, k;
        bool increasing;
        const char *slots;
    } cases[] = {
        /* 000, example 3, and 001, section 3.3 */
        {6, 4, true, "2:3 3:3 4:3 5:3 6:3 1:2"}, {6, 4, true, "5:1 6:1 1:0 2:0 3:0 4:0"},
        {6, 4, true, "1:0 2:0 3:0 4:0 5:0 6:0"}, {6, 4, true, "5:0 6:0 1:3 2:3 3:3 4:3"},
        {6, 4, true, "5:1 6:1 2:0 4:0"}, {6, 4, false, "5:1 2:0 4:0 6:0"}, {6, 4, false, "1:2 2:2 3:1 4:0"},
        /* 003, sections 2.1 and 2.2 */
        {7, 1, true, "5 1 2 4"}, {7, 1, false, "5 1 2 7"}, {7, 2, true, "5 6 7 -2 -4"},
        {7, 2, false, "-4 5 6 7"},
    };
    (void)call;
    for (size_t i = 0; i < COUNT_OF(cases); i++) {
        const struct asked slots = printed(cases[i].k, cases[i].slots);
        struct asked asked = reversed_and_filled(cases[i].n, slots);
        expect_number(cases[i].slots, LIMPET_VALUE(ask(&look_call, &asked)) >= slots.n, cases[i].increasing);
    }
}

/* 000, example 4, and 001, example 3: k = 10 is beyond the walker. */
static void beyond_the_walker(const struct call *call)
{
    const struct asked first = printed(10, "3:8 2:8 5:9 4:9 1:7 6:3");
    const struct asked second = printed(10, "1:8 3:7 2:6 5:5 4:3 6:2");
    (void)call;
    expect_refused(&look_call, &first, 2, 0);
    expect_refused(&look_call, &second, 2, 0);
}

/*
 * 000 and 001, example 1, k = 4: the round that begins at 1:0 2:0 3:2, by the same flips. It has a sublist
 * for each slot of rho, the last first, and the sublist begins with the three slots of rho that end there.
 * So rho_2 is 3:2 1:3, as 000 prints; 001 prints 3:0 1:3, a slip.
 */
static void sublists(const struct call *call)
{
    const struct asked rho = printed(4, "1:3 2:3 3:1 1:2 2:2 3:0 1:1 2:1 3:3 1:0 2:0 3:2");
    struct asked at = printed(4, "1:0 2:0 3:2"), board = board_of(at.n, at.k, 0);
    const uint64_t total = reference_round_total(at.n, at.k), of_sublist = total / rho.n;
    (void)call;
    for (uint64_t step = 1; step <= total; step++) {
        struct asked begins = at;
        const size_t from = 2 * rho.n - at.n - step / of_sublist;
        at.argument = LIMPET_FLIP(ask(&board_step_call, &board));
        for (size_t i = 0; i < at.n; i++)
            for (size_t row = 0; row < ROWS; row++)
                begins.lent[row].bytes[i] = rho.lent[row].bytes[(from + i) % rho.n];
        if (step % of_sublist == 0)
            expect(&flip_call, &at, 0, &begins);
        ask(&flip_call, &at);
    }
}

/*
 * Rec_k of 001 (1), which is 000 (4), of the first j slots of p; `at` has what is appended, in the slots
 * behind. Each arrangement is met with the number of those before it as argument. The rule for j = 1 is what
 * the other comes to there.
 */
static void meet_recursively(const struct asked *p, size_t j, struct asked *at)
{
    const size_t m = at->k * j;
    for (size_t i = m; i-- > 0;) {
        struct asked before = *p;
        for (size_t slot = 0; slot < j; slot++) { /* the j of rho that end with its element i, from 0 on */
            const size_t from = (i + m - (j - 1) + slot) % m;
            const size_t setting = p->lent[SETTINGS].bytes[from % j] + at->k - 1 - from / j;
            before.lent[MODULES].bytes[slot] = p->lent[MODULES].bytes[from % j];
            before.lent[SETTINGS].bytes[slot] = (uint8_t)(setting % at->k);
        }
        at->lent[MODULES].bytes[j - 1] = before.lent[MODULES].bytes[j - 1];
        at->lent[SETTINGS].bytes[j - 1] = before.lent[SETTINGS].bytes[j - 1];
        if (j > 1) {
            meet_recursively(&before, j - 1, at);
        } else {
            expect_rank(at);
            at->argument++;
        }
    }
}

static void recursion(const struct call *call, size_t n, size_t k)
{
    const struct asked p = home(n, k);
    struct asked at = p;
    (void)call;
    if (reference_round_total(n, k) > SMALL)
        return;
    meet_recursively(&p, n, &at);
    expect_number("length", at.argument, reference_round_total(n, k));
}

/*
 * sigma of 000 (5), which is empty for n = 0. Slips: 001 (2) prints k(n-1) for the kn - 1 times of its own
 * lemma 2, and the copy of 004 at hand, section 5, 2^(n-1) for the 2n - 1 times of its lemma 5.3.
 */
static size_t *put_flips(size_t *end, size_t n, size_t k)
{
    for (size_t times = 1; n > 0 && times < k * n; times++) {
        end = put_flips(end, n - 1, k);
        *end++ = n;
    }
    return n > 0 ? put_flips(end, n - 1, k) : end;
}

static void flip_sequence(const struct call *call, size_t n, size_t k)
{
    static size_t sequence[SMALL];
    const uint64_t total = reference_round_total(n, k);
    struct asked at = home(n, k);
    (void)call;
    if (total > SMALL)
        return;
    *put_flips(sequence, n, k) = n; /* which leads home */
    for (uint64_t rank = 0; rank < total; rank++)
        expect_number("flip", LIMPET_VALUE(ask(&next_call, &at)), sequence[rank]);
}

/* 000, theorem 6; and for k = 1 how often each length is made, as quoted in 003, section 1.1. */
static void lengths_of_flips(const struct call *call, size_t n, size_t k)
{
    const uint64_t total = reference_round_total(n, k);
    uint64_t made[LIMPET_MOST_SLOTS + 1] = {0}, sum = 0, known = total;
    struct asked board = board_of(n, k, 0);
    (void)call;
    if (total > SMALL)
        return;
    for (uint64_t rank = 0; rank < total; rank++)
        made[LIMPET_FLIP(ask(&board_step_call, &board))]++;
    for (size_t j = 1; j <= n; j++)
        sum += made[j] * j;
    for (size_t j = 1; j < n; j++) {
        known += total / reference_round_total(j, k);
        if (k == 1)
            expect_number("made", made[j], total / reference_round_total(j, 1) * (j - 1));
    }
    expect_number("sum", sum, known);
    if (n == 2 && k == 3)
        expect_number("cardinality", sum, 24); /* 000, section 5 */
}

/* What FLIPSEQ, algorithm 2 of 000 and 001, puts out next. As there, the arrays begin at 1. */
static size_t flipseq(size_t k, size_t *c, size_t *f)
{
    const size_t s = k == 1 ? 2 : 1, x = f[s];
    f[s] = s;
    c[x]++;
    if (c[x] == k * x - 1) {
        c[x] = 0;
        f[x] = f[x + 1];
        f[x + 1] = x + 1;
    }
    return x;
}

/*
 * Two slips: FLIPSEQ ends with n + 1, where the flip that closes the round is n; and for n = 1, k = 1 it then
 * reaches f_(n+2), for which there is room here.
 */
static void loop_free(const struct call *call, size_t n, size_t k)
{
    const uint64_t total = reference_round_total(n, k);
    size_t c[LIMPET_MOST_SLOTS + 2] = {0}, f[LIMPET_MOST_SLOTS + 3];
    (void)call;
    for (size_t j = 0; j < COUNT_OF(f); j++)
        f[j] = j;
    for (uint64_t rank = 0; total <= SMALL && rank < total; rank++) {
        const struct asked board = board_of(n, k, rank);
        struct asked next = board_of(n, k, (rank + 1) % total);
        const size_t x = flipseq(k, c, f);
        if (rank == total - 1) {
            expect_number("the last", x, n + 1);
            expect(&board_step_call, &board, answered(n | CLOSED), &next);
            return;
        }
        for (size_t j = 0; j < n; j++)
            next.lent[COUNTERS].bytes[j] = (uint8_t)c[j + 1];
        for (size_t j = 0; j <= n; j++)
            next.lent[POINTERS].bytes[j] = (uint8_t)f[j + 1];
        expect(&board_step_call, &board, answered(x), &next);
    }
}

/* 000, section 1.4, and 004, sections 1 and 8. A slip: for the 48 of n = 3, k = 2, 004 prints 3^2 3!. */
static void totals(const struct call *call)
{
    static const struct {
        size_t n, k;
        uint64_t total;
    } cases[] = {{6, 1, 720}, {4, 1, 24}, {5, 1, 120}, {5, 2, 3840}, {3, 2, 48}};
    (void)call;
    for (size_t i = 0; i < COUNT_OF(cases); i++) {
        const struct asked asked = {.n = cases[i].n, .k = cases[i].k};
        expect(&total_call, &asked, cases[i].total, &asked);
    }
}

void papers_tests(void)
{
    static const struct call papers = {.name = "papers"};
    static const struct test tests[] = {
        {"the rounds of n = 4, k = 1 and n = 3, k = 2 of 002, 003 and 004", .once = rounds},
        {"the round of n = 3, k = 3 of 000 and 001, its modules and flips", .once = round_without_settings},
        {"the openings of 002", .once = openings},
        {"the ranks of 000, 001 and 002", .once = ranks},
        {"the flips of 000, 001 and 004", .once = flips},
        {"the increasing slots of 000, 001 and 003", .once = increasing},
        {"the successors of 000 and 001 with k = 10: 2", .once = beyond_the_walker},
        {"the sublists of 000 and 001, example 1", .once = sublists},
        {"the recursive listing of 000 and 001, where T <= 2,000", .at_every_size = recursion},
        {"the flip sequence of 000 and 001, where T <= 2,000", .at_every_size = flip_sequence},
        {"the lengths of the flips of 000 and 003, where T <= 2,000", .at_every_size = lengths_of_flips},
        {"FLIPSEQ of 000 and 001, where T <= 2,000", .at_every_size = loop_free},
        {"the totals of 000 and 004", .once = totals},
    };
    run_tests(&papers, tests, COUNT_OF(tests));
}
