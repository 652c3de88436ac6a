/*
 * The tests of examples/station.c and examples/make_book.c: the built programs are run, and what they print
 * is held to plain C that writes each arrangement of a stretch from its rank.
 */
#define _XOPEN_SOURCE 700 /* posix_openpt, kill */

#include "arrangements.h"
#include "books.h"
#include "reference.h"
#include "reference_board.h"

#include <fcntl.h>
#include <inttypes.h>
#include <signal.h>
#include <stdarg.h>
#include <stdio.h>
#include <stdlib.h>
#include <string.h>
#include <unistd.h>

enum { DONE = 0, FAILED = 1, WRONG_ARGUMENTS = 2, STOPPED = 3 };
enum { SMALL = 2000, FEW = 150, WORDS_MOST = 300, WORD_MOST = 400, TEXT_MOST = 1 << 20, MEGABYTE = 1 << 20 };

#define BOOK_FILE FOLDER "/station.book"

/* A text in the making. */
struct draft {
    size_t length;
    char bytes[TEXT_MOST];
};

static struct text text_in(const struct draft *draft)
{
    return (struct text){draft->length, draft->bytes};
}

static void end_with(const char *what)
{
    perror(what);
    exit(1);
}

__attribute__((format(printf, 2, 3))) static void put(struct draft *draft, const char *format, ...)
{
    va_list values;
    va_start(values, format);
    draft->length +=
        (size_t)vsnprintf(draft->bytes + draft->length, TEXT_MOST - draft->length, format, values);
    va_end(values);
    if (draft->length >= TEXT_MOST)
        end_with("a text is too long");
}

static void save(const void *bytes, size_t length)
{
    FILE *const file = fopen(BOOK_FILE, "wb");
    if (file == NULL || fwrite(bytes, 1, length, file) != length || fclose(file) != 0)
        end_with(BOOK_FILE);
}

static void save_book(const struct book *book)
{
    save(book->bytes, book->length);
}

/* A book of one stretch. */
static void save_stretch(struct stretch stretch)
{
    struct book book = {.entries = 1, .stretches = {stretch}};
    write_book(&book);
    save_book(&book);
}

/* The words of a program and then its arguments, up to NULL; the next command is written over them. */
static char *const *command(char *const program[], size_t count, const char *const arguments[])
{
    static char *words[WORDS_MOST];
    size_t length = count;
    memcpy(words, program, count * sizeof *words);
    do
        words[length++] = (char *)*arguments;
    while (*arguments++ != NULL);
    return words;
}

static char *const *station(const char *const arguments[])
{
    static char *const program[] = {STATION_WORDS};
    return command(program, COUNT_OF(program), arguments);
}

/* Holds a run of a program to all that is known of it. */
static void expect_run(char *const words[], int status, struct text output, const char *errors)
{
    static struct draft asked;
    char came_status[WORD_MOST], known_status[WORD_MOST];
    const struct run run = run_program(words, text_of(""), 0);
    asked.length = 0;
    for (size_t i = 0; words[i] != NULL && i < 12; i++)
        put(&asked, "%s ", words[i]);
    sprintf(came_status, "exit status %d of %.300s", run.status, asked.bytes);
    sprintf(known_status, "exit status %d of %.300s", status, asked.bytes);
    expect_line(came_status, known_status);
    expect_text(text_in(&asked), run.output, output);
    expect_text(text_in(&asked), run.errors, text_of(errors));
}

/* Where the rule table of the station has no rule. */
static bool is_gap(unsigned module, size_t slot, unsigned setting)
{
    return (module == 1 && setting == 0 && slot == 3) || (module == 2 && setting == 1 && slot == 1);
}

/* The arrangement at a place of the stretch, from 0. */
static struct asked arrangement_at(const struct stretch *stretch, uint64_t place)
{
    const size_t n = stretch->n, k = stretch->k;
    const uint64_t total = reference_round_total(n, k), before_end = total - stretch->rank;
    const uint64_t rank = place < before_end ? stretch->rank + place : place - before_end;
    struct asked at = {.n = n, .k = k, .argument = rank};
    reference_unrank(n, k, rank, at.lent[MODULES].bytes, n, at.lent[SETTINGS].bytes, n);
    return at;
}

/* The lines of the places from one up to before another. */
static void put_gaps(struct draft *draft, const struct stretch *stretch, uint64_t from, uint64_t to)
{
    for (uint64_t place = from; place < to; place++) {
        const struct asked at = arrangement_at(stretch, place);
        const uint8_t *modules = at.lent[MODULES].bytes, *settings = at.lent[SETTINGS].bytes;
        size_t touched = at.n;
        if (place > 0)
            touched = flip_out_of(at.n, at.k, arrangement_at(stretch, place - 1).argument);
        for (size_t slot = 1; slot <= touched; slot++)
            if (is_gap(modules[slot - 1], slot, settings[slot - 1]))
                put(draft, "gap at %zu: %u:%u in slot %zu\n", at.argument, modules[slot - 1],
                    settings[slot - 1], slot);
    }
}

static void put_done(struct draft *draft, const struct stretch *stretch)
{
    put(draft, "done, all %" PRIu64 " are tried\n", stretch->count);
}

/* The three ways to go on after a place, as words. */
enum way { NUMBER, ARRANGEMENT, COUNTERS_AND_POINTERS, WAYS };
static const char *const options[WAYS] = {"--number", "--arrangement", "--counters"};

static char *put_row(char *at, const uint8_t *bytes, size_t length)
{
    for (size_t i = 0; i < length; i++)
        at += sprintf(at, "%s%u", i == 0 ? "" : ",", bytes[i]);
    return at;
}

static void write_words(const struct stretch *stretch, uint64_t place, char words[WAYS][WORD_MOST])
{
    const struct asked at = arrangement_at(stretch, place);
    uint8_t counters[LIMPET_MOST_SLOTS], pointers[LIMPET_MOST_SLOTS + 1];
    char *slots = words[ARRANGEMENT];
    reference_board_write(at.n, at.k, at.argument, counters, at.n, pointers, at.n + 1);
    sprintf(words[NUMBER], "%zu", at.argument);
    for (size_t i = 0; i < at.n; i++)
        slots += sprintf(slots, "%s%u:%u", i == 0 ? "" : ",", at.lent[MODULES].bytes[i],
                         at.lent[SETTINGS].bytes[i]);
    char *board = put_row(words[COUNTERS_AND_POINTERS], counters, at.n);
    put_row(board + sprintf(board, "/"), pointers, at.n + 1);
}

/* What a station prints that stops after a place. */
static void put_stop(struct draft *draft, const struct stretch *stretch, uint64_t place)
{
    char words[WAYS][WORD_MOST];
    write_words(stretch, place, words);
    put(draft, "stopped at %s, %" PRIu64 " of %" PRIu64 " left; to go on, add one of these:\n", words[NUMBER],
        stretch->count - 1 - place, stretch->count);
    for (enum way way = NUMBER; way < WAYS; way++)
        put(draft, "%s %s\n", options[way], words[way]);
}

/* Goes on after a place by each way, for so many steps or to the end. */
static void expect_going_on(const struct stretch *stretch, uint64_t place, uint64_t steps)
{
    static struct draft known;
    char words[WAYS][WORD_MOST], limit[WORD_MOST];
    const uint64_t left = stretch->count - 1 - place;
    known.length = 0;
    put_gaps(&known, stretch, place + 1, place + 1 + (steps < left ? steps : left));
    if (steps < left)
        put_stop(&known, stretch, place + steps);
    else
        put_done(&known, stretch);
    write_words(stretch, place, words);
    sprintf(limit, "%" PRIu64, steps);
    for (enum way way = NUMBER; way < WAYS; way++)
        expect_run(
            station((const char *[]){BOOK_FILE, "1", options[way], words[way], "--steps", limit, NULL}),
            steps < left ? STOPPED : DONE, text_in(&known), "");
}

static void expect_stopped(const struct stretch *stretch, uint64_t place)
{
    static struct draft known;
    char limit[WORD_MOST];
    known.length = 0;
    put_gaps(&known, stretch, 0, place + 1);
    put_stop(&known, stretch, place);
    sprintf(limit, "%" PRIu64, place);
    expect_run(station((const char *[]){BOOK_FILE, "1", "--steps", limit, NULL}), STOPPED, text_in(&known),
               "");
}

static void expect_whole(const struct stretch *stretch)
{
    static struct draft known;
    known.length = 0;
    put_gaps(&known, stretch, 0, stretch->count);
    put_done(&known, stretch);
    expect_run(station((const char *[]){BOOK_FILE, "1", NULL}), DONE, text_in(&known), "");
}

/* Across the end of the round, or around it. */
static void short_stretches(const struct call *call, size_t n, size_t k)
{
    const uint64_t total = reference_round_total(n, k), count = total < FEW ? total : FEW;
    const struct stretch stretch = {n, k, total - 1 - draw(count), count};
    (void)call;
    save_stretch(stretch);
    expect_whole(&stretch);
    if (count == 1)
        return;
    const uint64_t place = draw(count - 1);
    expect_stopped(&stretch, place);
    expect_going_on(&stretch, place, UINT64_MAX);
}

static void whole_rounds(const struct call *call, size_t n, size_t k)
{
    const uint64_t total = reference_round_total(n, k);
    const struct stretch stretch = {n, k, draw(total), total};
    (void)call;
    if (total > SMALL)
        return;
    save_stretch(stretch);
    expect_whole(&stretch);
}

/* All places of a stretch, the last of which has nothing left. */
static void every_stop(const struct call *call)
{
    const struct stretch stretch = {3, 2, 40, 20};
    (void)call;
    save_stretch(stretch);
    for (uint64_t place = 0; place < stretch.count; place++) {
        if (place < stretch.count - 1)
            expect_stopped(&stretch, place);
        for (uint64_t steps = 0; steps <= 2; steps++)
            expect_going_on(&stretch, place, steps);
        expect_going_on(&stretch, place, UINT64_MAX);
    }
}

static void example_run(const struct call *call)
{
    static char expected[TEXT_MOST];
    const int file = open(STATION_EXPECTED, O_RDONLY);
    (void)call;
    if (file < 0)
        end_with(STATION_EXPECTED);
    const struct text known = {read_to_end(file, expected, sizeof expected), expected};
    expect_run(station((const char *[]){ROUND_BOOK, "1", NULL}), DONE, known, "");
}

/* The word behind an option in what a station printed; it ends with its line. */
static void find_word(struct text printed, const char *option, char word[WORD_MOST])
{
    const char *at = printed.bytes;
    size_t length = 0;
    while (at != NULL && (strncmp(at, option, strlen(option)) != 0 || at[strlen(option)] != ' ')) {
        at = memchr(at, '\n', printed.length - (size_t)(at - printed.bytes));
        at = at == NULL || at + 1 == printed.bytes + printed.length ? NULL : at + 1;
    }
    at = at == NULL ? "\n" : at + strlen(option) + 1;
    for (; at[length] != '\n' && length < WORD_MOST - 1; length++)
        word[length] = at[length];
    word[length] = '\0';
}

/* The lines of a stopped station without those that tell where to go on. */
static struct text without_stop(struct text printed)
{
    static const char mark[] = "stopped at ";
    for (size_t i = 0; i + sizeof mark - 1 < printed.length; i++)
        if ((i == 0 || printed.bytes[i - 1] == '\n') && memcmp(printed.bytes + i, mark, sizeof mark - 1) == 0)
            return (struct text){i, printed.bytes};
    return printed;
}

/* Stopped again and again, each time after some steps, and handed over by what it printed itself. */
static void many_stops(const struct call *call)
{
    static struct draft all, known;
    const struct stretch stretch = {6, 2, 46000, 3000};
    char word[WORD_MOST], steps[WORD_MOST];
    const char *arguments[] = {BOOK_FILE, "1", "--steps", steps, NULL, word, NULL};
    struct run run;
    (void)call;
    save_stretch(stretch);
    all.length = known.length = 0;
    do {
        sprintf(steps, "%" PRIu64, draw(100));
        run = run_program(station(arguments), text_of(""), 0);
        const struct text part = without_stop(run.output);
        put(&all, "%.*s", (int)part.length, part.bytes);
        arguments[4] = options[draw(WAYS)];
        find_word(run.output, arguments[4], word);
    } while (run.status == STOPPED);
    put_gaps(&known, &stretch, 0, stretch.count);
    put_done(&known, &stretch);
    expect_text(text_of("many stops"), text_in(&all), text_in(&known));
}

/*
 * From 3 2 1 20 .. 4 on, with a gap in slot 3. The flip out of it, of all slots, takes module 1 to the back,
 * and no other flip of the stretch comes so far: there is one gap, and its line tells that the station can be
 * stopped.
 */
static struct stretch stretch_of_one_gap(void)
{
    uint8_t modules[LIMPET_MOST_SLOTS], settings[LIMPET_MOST_SLOTS] = {0};
    const size_t n = LIMPET_MOST_SLOTS;
    for (size_t i = 0; i < n; i++)
        modules[i] = (uint8_t)(i < 3 ? 3 - i : n + 3 - i);
    const uint64_t rank = reference_rank_value(n, 1, modules, n, settings, n);
    return (struct stretch){n, 1, rank, reference_round_total(17, 1)};
}

static void stop_by(int signal_number)
{
    static struct draft known;
    static char printed[TEXT_MOST];
    const struct stretch stretch = stretch_of_one_gap();
    char word[WORD_MOST];
    int ends[2];
    save_stretch(stretch);
    make_pipe(ends);
    const pid_t program = start_program(station((const char *[]){BOOK_FILE, "1", NULL}),
                                        open("/dev/null", O_RDONLY), ends[1], STDERR_FILENO);
    if (read(ends[0], printed, 1) != 1)
        printed[0] = '?';
    kill(program, signal_number);
    const struct text came = {1 + read_to_end(ends[0], printed + 1, sizeof printed - 1), printed};
    expect_line(status_of(program) == STOPPED ? "exit status 3" : "another end", "exit status 3");
    find_word(came, options[NUMBER], word);
    const uint64_t place = strtoull(word, NULL, 10) - stretch.rank;
    known.length = 0;
    put_gaps(&known, &stretch, 0, 1);
    put_stop(&known, &stretch, place);
    expect_text(text_of("a signal"), came, text_in(&known));
    expect_going_on(&stretch, place, FEW);
}

static void signals(const struct call *call)
{
    (void)call;
    for (int times = 0; times < 3; times++) {
        stop_by(SIGINT);
        stop_by(SIGTERM);
    }
}

/* The saved book is refused, by this number, at this place and with this meaning. */
static void expect_book_file(const char *number_and_meaning)
{
    char errors[WORD_MOST];
    sprintf(errors, "station: " BOOK_FILE " is refused by %s\n", number_and_meaning);
    expect_run(station((const char *[]){BOOK_FILE, "1", NULL}), FAILED, text_of(""), errors);
}

/* Every refusal, by a book of three entries with one fault. */
static void refused_books(const struct call *call)
{
    static const struct {
        enum fault fault;
        const char *refusal;
    } cases[] = {
        {UNDER_TWO_BYTES, "13: the book ends before its contents do"},
        {BAD_HEAD, "14: the format isn't 1, or the entries aren't 1 to 64"},
        {CONTENTS_CUT, "13: the book ends before its contents do"},
        {BAD_N, "1 at entry 2: n is 0 or above 20"},
        {BAD_K, "2 at entry 2: k is 0 or above 8"},
        {TOO_LARGE, "3 at entry 2: a round of this n and k has more than 2^64 - 1 arrangements"},
        {BAD_ENTRY,
         "15 at entry 2: its offset isn't the expected one, or its count is 0 or above T"},
        {BAD_END, "16: the book doesn't end where its last body does"},
        {BAD_MODULE, "5 at entry 2: a module is outside 1..n"},
        {MODULE_TWICE, "6 at entry 2: a module stands twice"},
        {BAD_SETTING, "7 at entry 2: a setting is k or more"},
    };
    (void)call;
    for (size_t i = 0; i < COUNT_OF(cases); i++) {
        struct book book = {.entries = 3, .stretches = {{3, 2, 40, 16}, {4, 2, 1, 2}, {2, 2, 6, 3}}};
        write_book(&book);
        spoil_book(&book, cases[i].fault, 2);
        save_book(&book);
        expect_book_file(cases[i].refusal);
    }
}

/* The longest book: 64 entries of 20 slots. */
static struct book longest_book(void)
{
    struct book book = {.entries = LIMPET_MOST_ENTRIES};
    for (size_t i = 0; i < LIMPET_MOST_ENTRIES; i++)
        book.stretches[i] = (struct stretch){20, 1, draw(1000000), FEW};
    write_book(&book);
    return book;
}

static void last_of_longest(const struct call *call)
{
    static struct draft known;
    const struct book book = longest_book();
    (void)call;
    save_book(&book);
    known.length = 0;
    put_gaps(&known, &book.stretches[LIMPET_MOST_ENTRIES - 1], 0, FEW);
    put_done(&known, &book.stretches[LIMPET_MOST_ENTRIES - 1]);
    expect_run(station((const char *[]){BOOK_FILE, "64", NULL}), DONE, text_in(&known), "");
}

static void bad_files(const struct call *call)
{
    static uint8_t megabyte[MEGABYTE];
    const struct book book = longest_book();
    (void)call;
    expect_run(station((const char *[]){FOLDER "/no such book", "1", NULL}), FAILED, text_of(""),
               "station: " FOLDER "/no such book: No such file or directory\n");
    expect_run(station((const char *[]){FOLDER, "1", NULL}), FAILED, text_of(""),
               "station: " FOLDER ": Is a directory\n");
    memcpy(megabyte, book.bytes, book.length);
    save(megabyte, book.length + 1);
    expect_book_file("16: the book doesn't end where its last body does");
    save(megabyte, sizeof megabyte);
    expect_book_file("16: the book doesn't end where its last body does");
    save("", 0);
    expect_book_file("13: the book ends before its contents do");
}

static void no_room_to_write(const struct call *call)
{
    static char *const with_no_room[] = {"/bin/sh", "-c", "exec \"$0\" \"$@\" >/dev/full"};
    (void)call;
    save_stretch((struct stretch){3, 2, 41, 4});
    expect_run(
        command(with_no_room, COUNT_OF(with_no_room), (const char *[]){STATION_WORDS BOOK_FILE, "1", NULL}),
        FAILED, text_of(""), "station: standard output: No space left on device\n");
}

static const char usage[] = "usage: station BOOK ENTRY [WHERE] [--steps COUNT]\n"
                            "  BOOK    a file with a book of stretches\n"
                            "  ENTRY   the number of the stretch in it, from 1\n"
                            "  WHERE   where to go on, as a stopped station printed it: one of\n"
                            "            --number RANK\n"
                            "            --arrangement MODULE:SETTING,..\n"
                            "            --counters COUNTER,../POINTER,..\n"
                            "  COUNT   after how many steps to stop\n";

/* Words that can't be read, and orders that contradict each other. */
static void wrong_arguments(const struct call *call)
{
    static const char *const cases[][7] = {
        {NULL},
        {BOOK_FILE},
        {BOOK_FILE, "one"},
        {BOOK_FILE, ""},
        {BOOK_FILE, "-1"},
        {BOOK_FILE, "1 "},
        {BOOK_FILE, " 1"},
        {BOOK_FILE, "18446744073709551616"},
        {BOOK_FILE, "1", "--number"},
        {BOOK_FILE, "1", "--number", "x"},
        {BOOK_FILE, "1", "--number", "-1"},
        {BOOK_FILE, "1", "--number", "18446744073709551656"},
        {BOOK_FILE, "1", "--steps", ""},
        {BOOK_FILE, "1", "--steps", "1x"},
        {BOOK_FILE, "1", "--step", "1"},
        {BOOK_FILE, "1", "2"},
        {BOOK_FILE, "1", "--arrangement", ""},
        {BOOK_FILE, "1", "--arrangement", "2:0,3:0,"},
        {BOOK_FILE, "1", "--arrangement", "2:0,3:0,1"},
        {BOOK_FILE, "1", "--arrangement", "2:0 3:0 1:1"},
        {BOOK_FILE, "1", "--arrangement", "256:0,3:0,1:1"},
        {BOOK_FILE, "1", "--arrangement",
         "1:0,1:0,1:0,1:0,1:0,1:0,1:0,1:0,1:0,1:0,1:0,1:0,1:0,1:0,1:0,1:0,"
         "1:0,1:0,1:0,1:0,1:0,1:0"},
        {BOOK_FILE, "1", "--counters", "0,0,5"},
        {BOOK_FILE, "1", "--counters", "0,0,5/"},
        {BOOK_FILE, "1", "--counters", "0,0,5/1,2,3,4/"},
        {BOOK_FILE, "1", "--number", "40", "--number", "40"},
        {BOOK_FILE, "1", "--number", "40", "--counters", "0,0,5/1,2,3,4"},
        {BOOK_FILE, "1", "--steps", "1", "--steps", "1"},
    };
    (void)call;
    save_stretch((struct stretch){3, 2, 40, 16});
    for (size_t i = 0; i < COUNT_OF(cases); i++)
        expect_run(station(cases[i]), WRONG_ARGUMENTS, text_of(""), usage);
}

/* Entries and places that the book or the stretch doesn't have: of the 16 from 40 on, the last is 7. */
static void refused_arguments(const struct call *call)
{
    static const struct {
        const char *entry, *option, *word, *errors;
    } cases[] = {
        {"0", NULL, NULL, BOOK_FILE " is refused by 18: the book has no such entry"},
        {"2", NULL, NULL, BOOK_FILE " is refused by 18: the book has no such entry"},
        {"4294967297", NULL, NULL, BOOK_FILE " is refused by 18: the book has no such entry"},
        {"1", "--number", "48", "--number is refused by 8: the round has no such rank"},
        {"1", "--number", "18446744073709551615", "--number is refused by 8: the round has no such rank"},
        {"1", "--number", "8", "it can't go on from there: the stretch doesn't meet this arrangement"},
        {"1", "--number", "39", "it can't go on from there: the stretch doesn't meet this arrangement"},
        {"1", "--arrangement", "3:1,1:0,2:0",
         "it can't go on from there: the stretch doesn't meet this arrangement"},
        {"1", "--counters", "0,0,1/1,2,3,4",
         "it can't go on from there: the stretch doesn't meet this arrangement"},
        {"1", "--arrangement", "2:0,3:0",
         "--arrangement is refused by 4: the slots aren't as many as the stretch has"},
        {"1", "--arrangement", "2:0,3:0,1:1,4:0",
         "--arrangement is refused by 4: the slots aren't as many as the stretch has"},
        {"1", "--arrangement", "2:0,4:0,1:1",
         "--arrangement is refused by 5 at slot 2: a module is outside 1..n"},
        {"1", "--arrangement", "2:0,3:0,3:1",
         "--arrangement is refused by 6 at slot 3: a module stands twice"},
        {"1", "--arrangement", "2:2,3:0,1:1",
         "--arrangement is refused by 7 at slot 1: a setting is k or more"},
        {"1", "--counters", "0,0,5/1,2,3",
         "--counters is refused by 4: the slots aren't as many as the stretch has"},
        {"1", "--counters", "0,0,5/1,2,3,3", "--counters is refused by 10: it is no rank's board"},
        {"1", "--counters", "1,0,5/1,2,3,4", "--counters is refused by 10: it is no rank's board"},
    };
    (void)call;
    save_stretch((struct stretch){3, 2, 40, 16});
    for (size_t i = 0; i < COUNT_OF(cases); i++) {
        char errors[WORD_MOST];
        sprintf(errors, "station: %s\n", cases[i].errors);
        expect_run(station((const char *[]){BOOK_FILE, cases[i].entry, cases[i].option, cases[i].word, NULL}),
                   FAILED, text_of(""), errors);
    }
}

/* A terminal as standard error. What the station writes to it is read from the other side. */
static void terminal(const struct call *call)
{
    static char shown[TEXT_MOST];
    static const char clear[] = "\r\033[K";
    char known[WORD_MOST];
    const int other_side = posix_openpt(O_RDWR | O_NOCTTY);
    (void)call;
    if (other_side < 0 || grantpt(other_side) != 0 || unlockpt(other_side) != 0)
        end_with("posix_openpt");
    const pid_t program =
        start_program(station((const char *[]){ROUND_BOOK, "1", NULL}), open("/dev/null", O_RDONLY),
                      open("/dev/null", O_WRONLY), open(ptsname(other_side), O_RDWR | O_NOCTTY));
    const struct text came = {read_to_end(other_side, shown, sizeof shown), shown};
    expect_line(status_of(program) == DONE ? "exit status 0" : "another end", "exit status 0");
    /* the four gaps of the stretch are printed on a cleared line */
    sprintf(known, "%s1 of 16 tried, 6.2 %%%s%s%s%s%s16 of 16 tried, 100.0 %%%s", clear, clear, clear, clear,
            clear, clear, clear);
    expect_text(text_of("a terminal"), came, text_of(known));
}

/* The words of stretches, four to each. */
static void write_stretch_words(const struct book *book, char words[][WORD_MOST])
{
    for (size_t i = 0; i < book->entries; i++, words += 4) {
        sprintf(words[0], "%zu", book->stretches[i].n);
        sprintf(words[1], "%zu", book->stretches[i].k);
        sprintf(words[2], "%" PRIu64, book->stretches[i].rank);
        sprintf(words[3], "%" PRIu64, book->stretches[i].count);
    }
}

static char *const *make_book(const char *const arguments[])
{
    static char *const program[] = {MAKE_BOOK_WORDS};
    return command(program, COUNT_OF(program), arguments);
}

static void made_books(const struct call *call)
{
    static char words[LIMPET_MOST_ENTRIES * 4][WORD_MOST];
    (void)call;
    for (size_t entries = 1; entries <= LIMPET_MOST_ENTRIES; entries += 7) {
        const struct book book = book_of(entries);
        const char *arguments[LIMPET_MOST_ENTRIES * 4 + 1] = {NULL};
        write_stretch_words(&book, words);
        for (size_t i = 0; i < entries * 4; i++)
            arguments[i] = words[i];
        expect_run(make_book(arguments), DONE, (struct text){book.length, (const char *)book.bytes}, "");
    }
}

static void unmade_books(const struct call *call)
{
    static const struct {
        const char *arguments[9], *errors;
    } cases[] = {
        {{"0", "2", "0", "1"}, "stretch 1 is refused by 1"},
        {{"18446744073709551615", "2", "0", "1"}, "stretch 1 is refused by 1"},
        {{"3", "2", "40", "16", "3", "9", "0", "1"}, "stretch 2 is refused by 2"},
        {{"3", "2", "40", "16", "17", "2", "0", "1"}, "stretch 2 is refused by 3"},
        {{"3", "2", "48", "16"}, "stretch 1 is refused by 8"},
        {{"3", "2", "40", "0"}, "stretch 1 is refused by 15"},
        {{"3", "2", "40", "49"}, "stretch 1 is refused by 15"},
    };
    static const char *const wrong[][6] = {{NULL},
                                           {"3", "2", "40"},
                                           {"3", "2", "40", "16", "3"},
                                           {"3", "2", "40", "x"},
                                           {"3", "2", "40", "16x"},
                                           {"3", "2", "-1", "16"}};
    (void)call;
    for (size_t i = 0; i < COUNT_OF(cases); i++) {
        char errors[WORD_MOST];
        sprintf(errors, "make_book: %s\n", cases[i].errors);
        expect_run(make_book(cases[i].arguments), FAILED, text_of(""), errors);
    }
    for (size_t i = 0; i < COUNT_OF(wrong); i++)
        expect_run(make_book(wrong[i]), WRONG_ARGUMENTS, text_of(""),
                   "usage: make_book N K RANK COUNT [N K RANK COUNT]..   for 1 to 64 stretches\n");
}

void station_tests(void)
{
    static const struct call call_station = {.name = "station"}, call_make_book = {.name = "make_book"};
    static const struct test of_station[] = {
        {"the example prints what is expected", .once = example_run},
        {"stretches across the end, stopped, and gone on with in three ways",
         .at_every_size = short_stretches},
        {"whole rounds from any rank, where T <= 2,000", .at_every_size = whole_rounds},
        {"every stop of a stretch, by every way, for some steps and to the end", .once = every_stop},
        {"a walk stopped again and again, by what it printed itself", .once = many_stops},
        {"stopped by SIGINT and SIGTERM, and gone on with", .once = signals},
        {"the last entry of the longest book", .once = last_of_longest},
        {"a refused book: its number, its place and what it means", .once = refused_books},
        {"no file, a folder, a byte too many, a megabyte, and an empty file", .once = bad_files},
        {"no room to write", .once = no_room_to_write},
        {"the usage for arguments that can't be read", .once = wrong_arguments},
        {"entries and places that aren't there", .once = refused_arguments},
        {"progress on a terminal", .once = terminal},
    };
    static const struct test of_make_book[] = {
        {"books of 1 to 64 entries", .once = made_books},
        {"stretches that are refused, and the usage", .once = unmade_books},
    };
    run_tests(&call_station, of_station, COUNT_OF(of_station));
    run_tests(&call_make_book, of_make_book, COUNT_OF(of_make_book));
}
