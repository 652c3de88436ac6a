/*
 * The tests of the planner's programs, book_write and book_read, and of the script that runs them: what they
 * print is held to the reference's, and to what is known of it.
 */
#include "books.h"
#include "limpet.h"
#include "reference.h"
#include "reference_planner.h"

#include <inttypes.h>
#include <stdio.h>
#include <string.h>

enum { DONE = 0, REFUSED = 1, AT_RANDOM = 200, MEGABYTE = 1 << 20, LINE_MOST = 100 };
enum { LINES_MOST = 70, INPUT_MOST = LINES_MOST * LINE_MOST };

/* A string and its length, with the NULs that stand in it. */
#define BYTES(string) {sizeof(string) - 1, string}

static char *const writer[] = {BOOK_WRITE_WORDS}, *const reader[] = {BOOK_READ_WORDS};

/* Lines in the making. */
struct lines {
    size_t length;
    char bytes[INPUT_MOST];
};

static struct text text_in(const struct lines *lines)
{
    return (struct text){lines->length, lines->bytes};
}

static void put_text(struct lines *lines, const char *text)
{
    lines->length += (size_t)sprintf(lines->bytes + lines->length, "%s", text);
}

static void put_line(struct lines *lines, uint64_t n, uint64_t k, uint64_t rank, uint64_t count)
{
    char line[LINE_MOST];
    sprintf(line, "%" PRIu64 " %" PRIu64 " %" PRIu64 " %" PRIu64 "\n", n, k, rank, count);
    put_text(lines, line);
}

static struct lines lines_of(const struct book *book)
{
    struct lines lines = {0};
    for (const struct stretch *at = book->stretches; at < book->stretches + book->entries; at++)
        put_line(&lines, at->n, at->k, at->rank, at->count);
    return lines;
}

/* As many times the same good line. */
static struct lines good_lines(size_t count)
{
    struct lines lines = {0};
    for (size_t i = 0; i < count; i++)
        put_text(&lines, "2 2 6 3\n");
    return lines;
}

static struct text bytes_of(const struct book *book)
{
    return (struct text){book->length, (const char *)book->bytes};
}

/* Holds a run to what is known of it. A program that is done has exit status 0, and each ends by itself. */
static void expect_run(char *const words[], struct text input, size_t piece, struct text output,
                       const char *errors)
{
    const struct run run = run_program(words, input, piece);
    const bool is_ended = *errors == '\0' ? run.status == DONE : run.status != BY_SIGNAL;
    expect_line(is_ended ? NULL : "the program failed", NULL);
    expect_text(input, run.output, output);
    expect_text(input, run.errors, text_of(errors));
}

/* Holds a run of a program to its reference, which answers what was printed. */
static const struct printed *expect_as_reference(char *const words[], struct text input)
{
    static struct printed known;
    if (words == writer)
        reference_planner_write(input.bytes, input.length, &known);
    else
        reference_planner_read(input.bytes, input.length, &known);
    expect_run(words, input, 0, (struct text){known.length, known.output}, known.errors);
    return &known;
}

/* The same, and the refusal is known to the test. */
static void expect_refusal(char *const words[], struct text input, unsigned number, size_t place)
{
    char known[REFUSAL_MOST];
    sprintf(known, "refused %u %zu\n", number, place);
    expect_text(input, text_of(expect_as_reference(words, input)->errors), text_of(known));
}

/* The book from its lines, and the lines of the book. */
static void expect_both(const struct book *book)
{
    const struct lines lines = lines_of(book);
    expect_run(writer, text_in(&lines), 0, bytes_of(book), "");
    expect_as_reference(writer, text_in(&lines));
    expect_as_reference(reader, bytes_of(book));
}

static const char *const worked_lines = "2 2 6 3\n2 3 17 18\n1 1 0 1\n";
static const char *const worked_reading = "2 2 3 6 2:0 1:1\n2 3 18 17 2:2 1:2\n1 1 1 0 1:0\n";

static void by_hand(const struct call *call)
{
    static const char long_lines[] = "20 1 0 2387527121043355528\n";
    static const char long_reading[] = "20 1 2387527121043355528 0 1:0 2:0 3:0 4:0 5:0 6:0 7:0 8:0 9:0 10:0 "
                                       "11:0 12:0 13:0 14:0 15:0 16:0 17:0 18:0 19:0 20:0\n";
    (void)call;
    expect_both(&worked_book);
    expect_run(writer, text_of(worked_lines), 0, bytes_of(&worked_book), "");
    expect_run(reader, bytes_of(&worked_book), 0, text_of(worked_reading), "");
    expect_run(writer, text_of(long_lines), 0, bytes_of(&worked_count), "");
    expect_run(reader, bytes_of(&worked_count), 0, text_of(long_reading), "");
}

static void every_size(const struct call *call, size_t n, size_t k)
{
    const uint64_t total = reference_round_total(n, k);
    struct book book = {.entries = 3,
                        .stretches = {{n, k, total - 1, 1}, stretch_of_size(n, k), {n, k, 0, total}}};
    (void)call;
    write_book(&book);
    expect_both(&book);
}

static void numbers_of_stretches(const struct call *call)
{
    (void)call;
    for (size_t stretches = 1; stretches <= LIMPET_MOST_ENTRIES; stretches++) {
        const struct book book = book_of(stretches);
        expect_both(&book);
    }
}

/* 64 stretches of the sizes with the longest books and the longest lines. */
static void largest(const struct call *call)
{
    static const size_t sizes[][2] = {{20, 1}, {16, 2}, {14, 3}, {12, 7}, {11, 8}};
    (void)call;
    for (size_t i = 0; i < COUNT_OF(sizes); i++) {
        const size_t n = sizes[i][0], k = sizes[i][1];
        const uint64_t total = reference_round_total(n, k);
        struct book book = {.entries = LIMPET_MOST_ENTRIES};
        for (size_t entry = 0; entry < LIMPET_MOST_ENTRIES; entry++)
            book.stretches[entry] = (struct stretch){n, k, total - 1 - entry, total - entry};
        write_book(&book);
        expect_both(&book);
    }
}

/* Each is refused by 17 alone, and so behind good lines; and it comes before what is wrong with a stretch. */
static void bad_lines(const struct call *call)
{
    static const struct text bad[] = {
        /* no end of the line, or another */
        BYTES("2"), BYTES("2 2 6 3"), BYTES("2 2 6 3 "), BYTES("2 2 6 "), BYTES(" "), BYTES("\n"),
        BYTES("\n\n"), BYTES("2 2 6 3\r\n"), BYTES("2 2 6 3\r"), BYTES("2 2 6 3;"), BYTES("2 2 6 3\0"),
        BYTES("2 2 6 3\0\n"), BYTES("\0"), BYTES("2 2 6 3\x1a"),
        /* fewer or more numbers, and other spaces */
        BYTES("2 2 6\n"), BYTES("2 2 6 \n"), BYTES("2\n2\n6\n3\n"), BYTES("2 2 6 3 0\n"), BYTES("2263\n"),
        BYTES("2 2 6 3 2 2 6 3\n"), BYTES(" 2 2 6 3\n"), BYTES("2 2 6 3 \n"), BYTES("2  2 6 3\n"),
        BYTES("2\t2 6 3\n"), BYTES("2,2,6,3\n"), BYTES("2 2 6\n3\n"), BYTES("   \n"),
        /* signs, zeros, and what is no digit */
        BYTES("+2 2 6 3\n"), BYTES("2 2 6 +3\n"), BYTES("-2 2 6 3\n"), BYTES("2 2 -0 3\n"),
        BYTES("02 2 6 3\n"), BYTES("2 02 6 3\n"), BYTES("2 2 06 3\n"), BYTES("2 2 6 03\n"),
        BYTES("2 2 00 3\n"), BYTES("0x2 2 6 3\n"), BYTES("2 2 6 3a\n"), BYTES("2 2 6.0 3\n"),
        BYTES("2 2 6 /\n"), BYTES("2 2 6 :\n"), BYTES("2 2 6 \xb3\n"), BYTES("# 2 2 6 3\n"),
        BYTES("\xef\xbb\xbf" "2 2 6 3\n"), BYTES("n k r t\n"),
        /* above 2^64 - 1, some of them with the low bits of a good number */
        BYTES("18446744073709551618 2 6 3\n"), BYTES("2 18446744073709551618 6 3\n"),
        BYTES("2 2 18446744073709551622 3\n"), BYTES("2 2 6 18446744073709551619\n"),
        BYTES("2 2 6 18446744073709551616\n"), BYTES("2 2 99999999999999999999 3\n"),
        BYTES("2 2 100000000000000000000 3\n"),
    };
    static const size_t good_before[] = {0, 1, LIMPET_MOST_ENTRIES - 1, LIMPET_MOST_ENTRIES};
    (void)call;
    for (size_t i = 0; i < COUNT_OF(bad); i++)
        for (size_t j = i % 2; j < COUNT_OF(good_before); j += 2) {
            struct lines lines = good_lines(good_before[j]);
            memcpy(lines.bytes + lines.length, bad[i].bytes, bad[i].length);
            lines.length += bad[i].length;
            expect_refusal(writer, text_in(&lines), 17, good_before[j] + 1);
        }
    expect_refusal(writer, text_of("0 9 9 0\n17 2 0 0\n2 2 6\n"), 17, 3);
    expect_refusal(writer, text_of("2 2 6\n2 2\n"), 17, 1);
}

/* The first 64 lines may be a book; the 65th is looked at, and no line behind it. */
static void too_many_lines(const struct call *call)
{
    static const char *const behind[] = {"", "2 2 6 3\n", "2 2 6 3", "x", "\n", "0 9 9 0\n", "+2 2 6 3\n"};
    (void)call;
    expect_refusal(writer, text_of(""), 14, 0);
    for (size_t i = 0; i < COUNT_OF(behind); i++) {
        struct lines lines = good_lines(LIMPET_MOST_ENTRIES + 1);
        put_text(&lines, behind[i]);
        expect_refusal(writer, text_in(&lines), 14, 0);
    }
    struct lines bad_size = good_lines(LIMPET_MOST_ENTRIES);
    put_text(&bad_size, "0 9 9 0\n");
    expect_refusal(writer, text_in(&bad_size), 14, 0);
}

static void refused_stretches(const struct call *call)
{
    static const struct {
        const char *line;
        unsigned number;
    } cases[] = {
        {"0 1 0 1\n", 1}, {"21 1 0 1\n", 1}, {"255 1 0 1\n", 1}, {"256 1 0 1\n", 1}, {"258 2 6 3\n", 1},
        {"4294967298 2 6 3\n", 1}, {"18446744073709551615 2 6 3\n", 1},
        {"1 0 0 1\n", 2}, {"1 9 0 1\n", 2}, {"2 255 6 3\n", 2}, {"2 256 6 3\n", 2}, {"2 258 6 3\n", 2},
        {"2 4294967298 6 3\n", 2}, {"2 18446744073709551615 6 3\n", 2},
        {"17 2 0 1\n", 3}, {"15 3 0 1\n", 3}, {"14 4 0 1\n", 3}, {"12 8 0 1\n", 3}, {"20 8 0 1\n", 3},
        {"2 2 8 3\n", 8}, {"2 2 262 3\n", 8}, {"2 2 4294967302 3\n", 8}, {"2 2 18446744073709551615 3\n", 8},
        {"20 1 2432902008176640000 1\n", 8},
        {"2 2 6 0\n", 15}, {"2 2 6 9\n", 15}, {"2 2 6 4294967299\n", 15}, {"2 2 6 18446744073709551615\n", 15},
        {"20 1 0 2432902008176640001\n", 15},
        /* two faults or more */
        {"0 0 0 0\n", 1}, {"256 256 0 0\n", 1}, {"21 9 9 9\n", 1}, {"17 256 9 9\n", 2}, {"20 0 0 0\n", 2},
        {"17 2 18446744073709551615 0\n", 3}, {"2 2 8 9\n", 8}, {"2 2 8 0\n", 8},
    };
    static const size_t good_before[] = {0, 1, LIMPET_MOST_ENTRIES - 1};
    (void)call;
    for (size_t i = 0; i < COUNT_OF(cases); i++) {
        const size_t before = good_before[i % COUNT_OF(good_before)];
        struct lines lines = good_lines(before);
        expect_refusal(writer, text_of(cases[i].line), cases[i].number, 1);
        put_text(&lines, cases[i].line);
        expect_refusal(writer, text_in(&lines), cases[i].number, before + 1);
    }
    expect_refusal(writer, text_of("2 2 6 3\n2 2 6 9\n2 2 8 3\n0 2 6 3\n"), 15, 2);
    expect_refusal(writer, text_of("2 2 6 3\n2 2 8 3\n2 9 6 3\n"), 8, 2);
}

/* One byte put in, taken out or exchanged. */
static void damage(struct lines *lines)
{
    static const char bytes[] = "0123456789 \n\t+-x";
    const size_t at = draw(lines->length), kind = draw(3);
    char *const from = lines->bytes + at;
    if (kind == 0)
        memmove(from + 1, from, lines->length++ - at);
    else if (kind == 1)
        memmove(from, from + 1, --lines->length - at);
    if (kind != 1)
        *from = bytes[draw(sizeof bytes)];
}

static void damaged_lines(const struct call *call)
{
    (void)call;
    for (int times = 0; times < AT_RANDOM; times++) {
        const struct book book = book_of(1 + draw(1 + draw(LIMPET_MOST_ENTRIES)));
        struct lines lines = lines_of(&book);
        for (uint64_t faults = draw(3); faults > 0; faults--)
            damage(&lines);
        expect_as_reference(writer, text_in(&lines));
    }
}

/* Good lines, and then one byte again and again up to a megabyte, with and without a newline at the end. */
static void megabytes_of_lines(const struct call *call)
{
    static const char fills[] = {'2', '0', ' ', '\n', 'x', '\0'};
    static const size_t good_before[] = {0, 1, LIMPET_MOST_ENTRIES, LIMPET_MOST_ENTRIES + 1};
    static char bytes[MEGABYTE];
    const struct text input = {sizeof bytes, bytes};
    (void)call;
    for (size_t i = 0; i < sizeof fills; i++)
        for (size_t j = 0; j < COUNT_OF(good_before); j++) {
            const struct lines lines = good_lines(good_before[j]);
            const bool is_too_many = good_before[j] > LIMPET_MOST_ENTRIES;
            memset(bytes, fills[i], sizeof bytes);
            memcpy(bytes, lines.bytes, lines.length);
            bytes[sizeof bytes - 1] = j % 2 == 0 ? '\n' : fills[i];
            expect_refusal(writer, input, is_too_many ? 14 : 17, is_too_many ? 0 : good_before[j] + 1);
        }
    for (size_t at = 0; at < sizeof bytes; at += 8)
        memcpy(bytes + at, "2 2 6 3\n", 8);
    expect_refusal(writer, input, 14, 0);
}

static void refused_books(const struct call *call)
{
    static const struct {
        size_t at;
        uint8_t byte;
        unsigned number;
        size_t place;
    } cases[] = {
        {0, 0, 14, 0}, {0, 2, 14, 0}, {1, 0, 14, 0}, {1, 65, 14, 0}, {1, 4, 13, 0}, {1, 64, 13, 0},
        {2, 0, 1, 1}, {16, 21, 1, 2}, {3, 0, 2, 1}, {31, 9, 2, 3}, {2, 20, 3, 1}, {16, 15, 3, 2},
        {4, 45, 15, 1}, {19, 1, 15, 2}, {8, 0, 15, 1}, {8, 9, 15, 1}, {43, 255, 15, 3},
        {44, 3, 5, 1}, {45, 34, 6, 1}, {46, 98, 7, 2}, {48, 33, 7, 3}, {48, 0, 5, 3},
    };
    struct book book = worked_book;
    (void)call;
    for (size_t i = 0; i < COUNT_OF(cases); i++) {
        book.bytes[cases[i].at] = cases[i].byte;
        expect_refusal(reader, bytes_of(&book), cases[i].number, cases[i].place);
        book.bytes[cases[i].at] = worked_book.bytes[cases[i].at];
    }
    for (book.length = 0; book.length < worked_book.length; book.length++)
        expect_refusal(reader, bytes_of(&book), book.length < 44 ? 13 : 16, 0);
    for (book.length++; book.length < worked_book.length + 9; book.length++)
        expect_refusal(reader, bytes_of(&book), 16, 0);
}

static void damaged_books(const struct call *call)
{
    (void)call;
    for (int times = 0; times < AT_RANDOM; times++) {
        struct book book = book_of(1 + draw(1 + draw(LIMPET_MOST_ENTRIES)));
        for (uint64_t damages = draw(3); damages > 0; damages--)
            book.bytes[draw(2) == 0 ? draw(book.length) : draw(entry_at(2))] = (uint8_t)draw(256);
        if (draw(8) == 0)
            book.length = draw(book.length + SPARE);
        expect_as_reference(reader, bytes_of(&book));
    }
}

/* A book, and a megabyte behind it; the longest of all too. */
static void megabytes_of_book(const struct call *call)
{
    static char bytes[MEGABYTE];
    const struct text input = {sizeof bytes, bytes};
    struct book longest = {.entries = LIMPET_MOST_ENTRIES};
    (void)call;
    expect_refusal(reader, input, 14, 0);
    memcpy(bytes, worked_book.bytes, worked_book.length);
    expect_refusal(reader, input, 16, 0);
    for (size_t i = 0; i < LIMPET_MOST_ENTRIES; i++)
        longest.stretches[i] = stretch_of_size(LIMPET_MOST_SLOTS, 1);
    write_book(&longest);
    memcpy(bytes, longest.bytes, longest.length);
    expect_refusal(reader, input, 16, 0);
    longest.length++;
    expect_refusal(reader, bytes_of(&longest), 16, 0);
}

/* The bytes of an input come when they come; its end is the end of the pipe and no sooner. */
static void in_pieces(const struct call *call)
{
    (void)call;
    for (size_t piece = 1; piece <= 8; piece++) {
        struct book more = worked_book;
        more.length++;
        expect_run(writer, text_of(worked_lines), piece, bytes_of(&worked_book), "");
        expect_run(writer, text_of("2 2 6 3\n2 2 6 3"), piece, text_of(""), "refused 17 2\n");
        expect_run(reader, bytes_of(&worked_book), piece, text_of(worked_reading), "");
        expect_run(reader, bytes_of(&more), piece, text_of(""), "refused 16 0\n");
    }
}

/* Runs the script, which has to be done, or to print one line that begins so. */
static void expect_script(const char *word, struct text input, struct text output, const char *begins)
{
    char *const words[] = {BOOK_SCRIPT, (char *)word, NULL};
    const struct run run = run_program(words, input, 0);
    const size_t length = strlen(begins), errors = run.errors.length;
    const bool is_one_line =
        errors > length && memchr(run.errors.bytes, '\n', errors) == run.errors.bytes + errors - 1;
    expect_line(run.status == (length == 0 ? DONE : REFUSED) ? NULL : "another exit status", NULL);
    expect_text(input, run.output, output);
    expect_text(input, (struct text){length == 0 || errors < length ? errors : length, run.errors.bytes},
                text_of(begins));
    expect_line(length == 0 || is_one_line ? NULL : "another number of lines than one", NULL);
}

static void script(const struct call *call)
{
    struct book bad = worked_book;
    bad.bytes[46] = 98;
    (void)call;
    expect_script("write", text_of(worked_lines), bytes_of(&worked_book), "");
    expect_script("read", bytes_of(&worked_book), text_of(worked_reading), "");
    expect_script("write", text_of("2 2 6 3\n2 2 6 3"), text_of(""), "refused 17 at 2: ");
    expect_script("write", text_of(""), text_of(""), "refused 14 at 0: ");
    expect_script("write", text_of("2 2 6 3\n2 2 6 9\n"), text_of(""), "refused 15 at 2: ");
    expect_script("read", text_of(""), text_of(""), "refused 13 at 0: ");
    expect_script("read", bytes_of(&bad), text_of(""), "refused 7 at 2: ");
}

void planner_tests(void)
{
    static const struct call both = {.name = "book_write, book_read"}, of_writer = {.name = "book_write"},
                             of_reader = {.name = "book_read"}, of_script = {.name = "./book"};
    static const struct test of_both_tests[] = {
        {"the books written by hand, and their lines", .once = by_hand},
        {"a book of every size, written and read", .at_every_size = every_size},
        {"books of 1 to 64 stretches", .once = numbers_of_stretches},
        {"64 stretches of the largest sizes", .once = largest},
        {"an input in pieces", .once = in_pieces},
    };
    static const struct test of_writer_tests[] = {
        {"17 for the first line that isn't four numbers, before all others", .once = bad_lines},
        {"14 for no line and for 65, whatever follows", .once = too_many_lines},
        {"1, 2, 3, 8 and 15, and of several the one that is tried first", .once = refused_stretches},
        {"good and damaged lines at random", .once = damaged_lines},
        {"17 and 14 for a megabyte", .once = megabytes_of_lines},
    };
    static const struct test of_reader_tests[] = {
        {"each refusal and its place", .once = refused_books},
        {"good and damaged books at random", .once = damaged_books},
        {"14 and 16 for a megabyte", .once = megabytes_of_book},
    };
    static const struct test of_script_tests[] = {
        {"a book written and read, and what is refused", .once = script},
    };
    run_tests(&both, of_both_tests, COUNT_OF(of_both_tests));
    run_tests(&of_writer, of_writer_tests, COUNT_OF(of_writer_tests));
    run_tests(&of_reader, of_reader_tests, COUNT_OF(of_reader_tests));
    run_tests(&of_script, of_script_tests, COUNT_OF(of_script_tests));
}
