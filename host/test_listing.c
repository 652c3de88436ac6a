/* The tests of the listing: the built program is run, and what it prints is held to the reference's. */
#include "arrangements.h"
#include "greedy.h"
#include "listings.h"
#include "reference.h"

#include <inttypes.h>
#include <stdio.h>
#include <string.h>

enum { MOST_LISTED = 65536, MEGABYTE = 1 << 20, AT_RANDOM = 500 };

static void expect_number(struct text input, unsigned number)
{
    char known[LINE_MOST];
    snprintf(known, sizeof known, "refused %u\n", number);
    expect_listing(input, known);
}

static const char *const example = "walk 2 2 6 3\n"
                                   "6 1 2:0 1:1\n"
                                   "7 2 2:1 1:1\n"
                                   "0 1 1:0 2:0\n"
                                   "next 1\n";

static void worked_listings(const struct call *call)
{
    (void)call;
    expect_listing(text_of("2 2 6 3\n"), example);
    expect_listing(text_of("2 2 6 0\n"), "walk 2 2 6 0\nnext 6\n");
    expect_listing(text_of("1 1 0 2\n"), "walk 1 1 0 2\n0 1 1:0\n0 1 1:0\nnext 0\n");
    expect_listing(text_of("2 3 17 1\n"), "walk 2 3 17 1\n17 2 2:2 1:2\nnext 0\n");
    expect_listing(text_of("6 2 18227 1\n"),
                   "walk 6 2 18227 1\n18227 2 1:0 4:1 3:0 6:1 5:0 2:0\nnext 18228\n");
    expect_listing(text_of("7 1 3653 1\n"),
                   "walk 7 1 3653 1\n3653 4 3:0 7:0 6:0 4:0 5:0 1:0 2:0\nnext 3654\n");
}

static void round_of_two_listed(const struct call *call)
{
    static struct listing listing;
    (void)call;
    begin_listing(&listing, 2, 2, TOTAL_OF_TWO);
    for (size_t rank = 0; rank < TOTAL_OF_TWO; rank++) {
        struct asked at = written(2, round_of_two[rank]);
        at.argument = rank;
        put_arrangement(&listing, &at, 1 + rank % 2);
    }
    expect_written_listing(&listing);
}

static struct listing greedy;

static void put_met(const struct call *call, const struct asked *met)
{
    (void)call;
    put_arrangement(&greedy, met, flip_out_of(met->n, met->k, met->argument));
}

static void greedy_order(const struct call *call, size_t n, size_t k)
{
    const uint64_t total = reference_round_total(n, k);
    if (total > SMALL)
        return;
    begin_listing(&greedy, n, k, total);
    greedy_round(call, n, k, put_met);
    expect_written_listing(&greedy);
}

static void round_and_more(const struct call *call, size_t n, size_t k)
{
    const uint64_t total = reference_round_total(n, k);
    (void)call;
    if (total <= SMALL)
        expect_listing(line_of(n, k, draw(total), total + 3), NULL);
}

static void across_the_end(const struct call *call, size_t n, size_t k)
{
    const uint64_t total = reference_round_total(n, k);
    (void)call;
    expect_listing(line_of(n, k, total - 1, 1), NULL);
    expect_listing(line_of(n, k, total < 3 ? 0 : total - 3, 5), NULL);
    expect_number(line_of(n, k, total, 1), 8);
}

static void no_arrangement(const struct call *call, size_t n, size_t k)
{
    char known[LINE_MOST];
    const uint64_t rank = draw(reference_round_total(n, k));
    (void)call;
    sprintf(known, "walk %zu %zu %" PRIu64 " 0\nnext %" PRIu64 "\n", n, k, rank, rank);
    expect_listing(line_of(n, k, rank, 0), known);
}

static void longest(const struct call *call)
{
    static const size_t sizes[][2] = {{20, 1}, {16, 2}, {11, 8}, {2, 2}, {1, 1}};
    (void)call;
    for (size_t i = 0; i < COUNT_OF(sizes); i++) {
        const size_t n = sizes[i][0], k = sizes[i][1];
        const uint64_t total = reference_round_total(n, k);
        expect_listing(line_of(n, k, total - (total > MOST_LISTED ? 30000 : 1), MOST_LISTED), NULL);
        expect_number(line_of(n, k, total - 1, MOST_LISTED + 1), 11);
    }
}

/* A string and its length, with the NULs that stand in it. */
#define BYTES(string) {sizeof(string) - 1, string}

static void bad_inputs(const struct call *call)
{
    static const struct text bad[] = {
        /* no line, or no end of it */
        BYTES(""), BYTES("\n"), BYTES(" "), BYTES("2"), BYTES("2 2 6 3"), BYTES("2 2 6 3 "),
        BYTES("2 2 6 "),
        /* fewer or more numbers */
        BYTES("2\n"), BYTES("2 2\n"), BYTES("2 2 6\n"), BYTES("2 2 6 \n"), BYTES("2 2 6 3 0\n"),
        BYTES("2263\n"), BYTES("2 2 6 3 2 2 6 3\n"), BYTES(" 2 6 3\n"), BYTES("   \n"),
        /* other spaces */
        BYTES(" 2 2 6 3\n"), BYTES("2 2 6 3 \n"), BYTES("2  2 6 3\n"), BYTES("2 2  6 3\n"),
        BYTES("2 2 6  3\n"), BYTES("2\t2 6 3\n"), BYTES("2 2 6\t3\n"), BYTES("2 2 6 3\t\n"),
        BYTES("2\n2\n6\n3\n"), BYTES("2,2,6,3\n"), BYTES("2 2 6\n3\n"), BYTES("2\v2 6 3\n"),
        BYTES("2\xc2\xa0" "2 6 3\n"), BYTES("2\xa0" "2 6 3\n"),
        /* other ends, and bytes behind the end */
        BYTES("2 2 6 3\r\n"), BYTES("2 2 6 3\r"), BYTES("2 2 6 3\n\r"), BYTES("2 2 6 3\n\n"),
        BYTES("\n2 2 6 3\n"), BYTES("2 2 6 3\n "), BYTES("2 2 6 3\n0"), BYTES("2 2 6 3\nx"),
        BYTES("2 2 6 3\n2 2 6 3\n"), BYTES("2 2 6 3;"), BYTES("2 2 6 3\f"), BYTES("2 2 6 3\x1a"),
        BYTES("2 2 6 3\n\x04"), BYTES("2 2 6 3\x8a"),
        /* signs, zeros, and what is no digit */
        BYTES("+2 2 6 3\n"), BYTES("2 +2 6 3\n"), BYTES("2 2 6 +3\n"), BYTES("-2 2 6 3\n"),
        BYTES("2 2 -0 3\n"), BYTES("2 2 6 -3\n"), BYTES("02 2 6 3\n"), BYTES("2 02 6 3\n"),
        BYTES("2 2 06 3\n"), BYTES("2 2 6 03\n"), BYTES("2 2 00 3\n"), BYTES("2 2 6 00\n"),
        BYTES("00 2 6 3\n"), BYTES("2 2 01 3\n"), BYTES("2 2 000000000000000000000 3\n"),
        BYTES("0x2 2 6 3\n"), BYTES("2 2 0x6 3\n"), BYTES("a 2 6 3\n"), BYTES("2 2 6 3a\n"),
        BYTES("2 2 6a 3\n"), BYTES("2 2 6.0 3\n"), BYTES("2 2 6 3.\n"), BYTES("2 2 6 3e0\n"),
        BYTES("2 2 6 1_0\n"), BYTES("2 2 6 1,0\n"), BYTES("two 2 6 3\n"), BYTES("2 2 6 /\n"),
        BYTES("2 2 6 :\n"), BYTES("2 2 6 \xb3\n"), BYTES("2 2 6 \xef\xbc\x93\n"),
        BYTES("\xef\xbb\xbf" "2 2 6 3\n"), BYTES("2 2 \"6\" 3\n"), BYTES("n k r t\n"),
        BYTES("walk 2 2 6 3\n"), BYTES("# 2 2 6 3\n"), BYTES("2 2 NaN 3\n"),
        /* NULs */
        BYTES("\0"), BYTES("\0" "2 2 6 3\n"), BYTES("2\0" "2 6 3\n"), BYTES("2 2 6 3\0\n"),
        BYTES("2 2 6 3\0"), BYTES("2 2 6 3\n\0"), BYTES("2 2 6 3\n\0\0\0\0\0\0\0"), BYTES("2 2 6\0 3\n"),
        BYTES("2 2 \0 3\n"),
        /* above 2^64 - 1, some of them with the low bits of a good number */
        BYTES("18446744073709551616 2 6 3\n"), BYTES("18446744073709551618 2 6 3\n"),
        BYTES("2 18446744073709551618 6 3\n"), BYTES("2 2 18446744073709551622 3\n"),
        BYTES("2 2 6 18446744073709551619\n"), BYTES("2 2 18446744073709551616 3\n"),
        BYTES("2 2 6 18446744073709551616\n"), BYTES("2 2 6 18446744073709551625\n"),
        BYTES("2 2 18446744073709551620 3\n"), BYTES("2 2 99999999999999999999 3\n"),
        BYTES("2 2 6 36893488147419103235\n"), BYTES("2 2 184467440737095516160 3\n"),
        BYTES("2 2 100000000000000000000 3\n"), BYTES("2 2 000000000000000000006 3\n"),
        BYTES("340282366920938463463374607431768211458 2 6 3\n"),
        BYTES("18446744073709551615 18446744073709551615 18446744073709551615 18446744073709551616\n"),
        /* a byte behind the longest line of four numbers */
        BYTES("18446744073709551615 18446744073709551615 18446744073709551615 18446744073709551615\n\n"),
        BYTES("18446744073709551615 18446744073709551615 18446744073709551615 18446744073709551615 \n"),
    };
    (void)call;
    for (size_t i = 0; i < COUNT_OF(bad); i++)
        expect_number(bad[i], 17);
}

/* A beginning, and then one byte again and again up to a megabyte, with and without a newline at the end. */
static void megabytes(const struct call *call)
{
    static const char *const beginnings[] = {"", "2 2 6 3", "2 2 6 3\n", "2 2 ", "2 2 6 "};
    static const char fills[] = "0123456789 \nx\0";
    static char bytes[MEGABYTE];
    (void)call;
    for (size_t i = 0; i < COUNT_OF(beginnings); i++)
        for (size_t fill = 0; fill < sizeof fills; fill += 3) {
            memset(bytes, fills[fill], sizeof bytes);
            memcpy(bytes, beginnings[i], strlen(beginnings[i]));
            expect_number((struct text){sizeof bytes, bytes}, 17);
            bytes[sizeof bytes - 1] = '\n';
            expect_number((struct text){sizeof bytes, bytes}, 17);
        }
}

static void refusals(const struct call *call)
{
    static const struct {
        const char *input;
        unsigned number;
    } cases[] = {
        {"0 1 0 0\n", 1}, {"21 1 0 0\n", 1}, {"22 8 0 0\n", 1}, {"256 1 0 0\n", 1}, {"258 2 6 3\n", 1},
        {"65538 2 6 3\n", 1}, {"4294967298 2 6 3\n", 1}, {"9223372036854775810 2 6 3\n", 1},
        {"18446744073709551615 2 6 3\n", 1},
        {"1 0 0 0\n", 2}, {"1 9 0 0\n", 2}, {"20 9 0 0\n", 2}, {"2 258 6 3\n", 2}, {"2 4294967298 6 3\n", 2},
        {"2 18446744073709551615 6 3\n", 2}, {"2 9223372036854775810 6 3\n", 2},
        {"17 2 0 0\n", 3}, {"15 3 0 0\n", 3}, {"14 4 0 0\n", 3}, {"12 8 0 0\n", 3}, {"20 8 0 1\n", 3},
        {"20 2 0 1\n", 3},
        {"1 1 1 0\n", 8}, {"2 2 8 0\n", 8}, {"2 2 8 3\n", 8}, {"2 2 10 3\n", 8}, {"2 2 262 3\n", 8},
        {"2 2 4294967302 3\n", 8}, {"2 2 9223372036854775814 3\n", 8}, {"2 2 18446744073709551615 3\n", 8},
        {"20 1 2432902008176640000 1\n", 8}, {"20 1 18446744073709551615 1\n", 8},
        {"1 1 0 65537\n", 11}, {"2 2 6 65539\n", 11}, {"2 2 6 131072\n", 11}, {"2 2 6 4294967299\n", 11},
        {"2 2 6 9223372036854775811\n", 11}, {"2 2 6 18446744073709551615\n", 11},
        /* two faults or more, and the lower number */
        {"0 0 0 0\n", 1}, {"0 9 6 3\n", 1}, {"21 8 0 0\n", 1}, {"0 2 8 3\n", 1}, {"0 2 6 65537\n", 1},
        {"21 9 18446744073709551615 65537\n", 1}, {"20 0 0 0\n", 2}, {"17 9 0 0\n", 2}, {"2 0 8 3\n", 2},
        {"2 9 6 65537\n", 2}, {"17 2 18446744073709551615 0\n", 3}, {"17 2 0 65537\n", 3},
        {"12 8 18446744073709551615 65537\n", 3}, {"2 2 8 65537\n", 8}, {"1 1 1 65537\n", 8},
        {"18446744073709551615 18446744073709551615 18446744073709551615 18446744073709551615\n", 1},
        /* 17 before all others */
        {"0 2 6 03\n", 17}, {"2 9 6 3 \n", 17}, {"17 2 0 0", 17}, {"2 2 8 +3\n", 17}, {"2 2 6 65537\n\n", 17},
        {"0 0 18446744073709551616 0\n", 17}, {"21 9 0 18446744073709551616\n", 17},
    };
    (void)call;
    for (size_t i = 0; i < COUNT_OF(cases); i++)
        expect_number(text_of(cases[i].input), cases[i].number);
}

/* A number at or near a limit of the place, 0 to 3, that it stands in. */
static uint64_t number_for(size_t place, uint64_t total)
{
    const uint64_t limits[] = {20, 8, total, MOST_LISTED}, small[] = {20, 8, total, 6};
    switch (draw(8)) {
    case 0: return limits[place] + draw(4) - 1;
    case 1: return draw(3);
    case 2: return ((uint64_t)1 << (8 << draw(3))) + draw(4);
    case 3: return UINT64_MAX - draw(2);
    default: return draw(small[place] == 0 ? 1 : small[place]) + (place < 2);
    }
}

/* One byte put in, taken out or exchanged. */
static size_t damage(char *line, size_t length)
{
    static const char bytes[] = "0123456789 \n\t+-x";
    const size_t at = draw(length + 1), kind = draw(3);
    if (kind != 0 && at < length) {
        memmove(line + at, line + at + 1, length - at - 1);
        length--;
    }
    if (kind == 1)
        return length;
    memmove(line + at + 1, line + at, length - at);
    line[at] = bytes[draw(sizeof bytes)];
    return length + 1;
}

static void random_inputs(const struct call *call)
{
    (void)call;
    for (int times = 0; times < AT_RANDOM; times++) {
        char line[LINE_MOST];
        const uint64_t n = number_for(0, 0), k = number_for(1, 0), total = reference_round_total(n, k);
        const uint64_t rank = number_for(2, total), t = number_for(3, total);
        const struct text good = line_of(n, k, rank, t <= MOST_LISTED ? t % 300 : t);
        size_t length = good.length;
        memcpy(line, good.bytes, length);
        for (uint64_t faults = draw(3); faults > 0; faults--)
            length = damage(line, length);
        expect_listing((struct text){length, line}, NULL);
    }
}

/* The bytes of an input come when they come; its end is the end of the pipe and no sooner. */
static void in_pieces(const struct call *call)
{
    (void)call;
    for (size_t piece = 1; piece <= 8; piece++) {
        expect_in_pieces(text_of("2 2 6 3\n"), piece, example);
        expect_in_pieces(text_of("2 2 6 3\n\n"), piece, "refused 17\n");
        expect_in_pieces(text_of("2 2 6 3"), piece, "refused 17\n");
    }
}

void listing_tests(void)
{
    static const struct call listing = {.name = "listing"};
    static const struct test tests[] = {
        {"the listings that 01 works out", .once = worked_listings},
        {"the round of n = 2, k = 2 that 01 works out", .once = round_of_two_listed},
        {"the whole greedy round, where T <= 2,000", .at_every_size = greedy_order},
        {"a whole round and three more from any rank, where T <= 2,000", .at_every_size = round_and_more},
        {"t = 0 lists the head and next r", .at_every_size = no_arrangement},
        {"rank T-1, the ranks T-3 to 1, and 8 for T", .at_every_size = across_the_end},
        {"t = 65,536, and 11 for 65,537", .once = longest},
        {"17 for every input that isn't as described", .once = bad_inputs},
        {"17 for a megabyte", .once = megabytes},
        {"1, 2, 3, 8 and 11, of two faults the lower, and 17 before all", .once = refusals},
        {"good and damaged lines at random", .once = random_inputs},
        {"an input in pieces", .once = in_pieces},
    };
    run_tests(&listing, tests, COUNT_OF(tests));
}
