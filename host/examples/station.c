/*
 * A station of the test bay. It takes one stretch out of a book, walks it by the counters of a board, and
 * tries a small rule table on each arrangement:
 *
 *    station BOOK ENTRY [--number RANK | --arrangement SLOTS | --counters BOARD] [--steps COUNT]
 *
 * A gap is a module in a slot at a setting for which the table has no rule. Each one that is found is a line,
 * with the rank of the arrangement. The first arrangement is tried in all its slots; after that only the
 * slots that a flip touched are tried, since what stands behind them was tried before.
 *
 * SIGINT, SIGTERM or the end of COUNT steps stop the station. It then prints where it is, as a number, as an
 * arrangement and as counters. Any one of these three, given as printed, has it go on: what was tried isn't
 * tried again, and the lines of all parts together are those of a walk that was never stopped.
 *
 * The exit status is 0 where the stretch is done, 1 where something was refused or failed, 2 where the
 * arguments are wrong, and 3 where it was stopped.
 */
#define _POSIX_C_SOURCE 200809L /* sigaction, isatty */

#include "limpet.h"
#include "numbers.h"

#include <inttypes.h>
#include <signal.h>
#include <stdbool.h>
#include <stdio.h>
#include <stdlib.h>
#include <string.h>
#include <unistd.h>

enum { DONE = 0, FAILED = 1, WRONG_ARGUMENTS = 2, STOPPED = 3, STEPS_PER_PROGRESS = 1 << 20 };

/* The modules, the slots and the settings that a rule speaks of, each from one to another. */
struct range {
    unsigned from, to;
};
struct rule {
    struct range modules, slots, settings;
};

/* A rule that forbids is a rule too. There are gaps for 1:0 in slot 3, and for 2:1 in slot 1. */
static const struct rule rules[] = {
    {{1, 1}, {1, 2}, {0, 7}},   /* the mains module may stand in the first two slots */
    {{1, 1}, {3, 3}, {1, 7}},   /* in the third it may stand at settings above 0 */
    {{1, 1}, {4, 20}, {0, 7}},  /* further behind it may not stand */
    {{2, 2}, {1, 1}, {0, 0}},   /* the detector may stand in front at setting 0 */
    {{2, 2}, {1, 1}, {2, 7}},   /* and may not at settings above 1 */
    {{2, 2}, {2, 20}, {0, 7}},  /* elsewhere it may stand */
    {{3, 20}, {1, 20}, {0, 7}}, /* all other modules may stand anywhere */
};

static bool is_in(struct range range, unsigned number)
{
    return number >= range.from && number <= range.to;
}

static bool has_rule(unsigned module, unsigned slot, unsigned setting)
{
    for (size_t i = 0; i < sizeof rules / sizeof rules[0]; i++)
        if (is_in(rules[i].modules, module) && is_in(rules[i].slots, slot) &&
            is_in(rules[i].settings, setting))
            return true;
    return false;
}

/* One byte more than the longest book: what is longer is refused all the same. */
struct book {
    size_t length;
    uint8_t bytes[LIMPET_MOST_BOOK + 1];
};

struct row {
    size_t length;
    uint8_t bytes[LIMPET_MOST_SLOTS + 1];
};

/* Where the station begins: at the start of the stretch, or after the arrangement that it is told. */
struct beginning {
    enum { AT_START, AFTER_NUMBER, AFTER_ARRANGEMENT, AFTER_COUNTERS } way;
    uint64_t number;
    struct row first, second; /* modules and settings, or counters and pointers */
};

/* What the arguments say. */
struct orders {
    const char *book;
    size_t entry;
    struct beginning beginning;
    uint64_t steps;
    bool are_steps_set;
};

/* The stretch, and the arrangement in hand, the last that was tried, with its rank and its board. */
struct walk {
    size_t n, k;
    uint64_t total, start, count;
    uint64_t rank, left; /* how many are left to try */
    uint8_t modules[LIMPET_MOST_SLOTS], settings[LIMPET_MOST_SLOTS];
    uint8_t counters[LIMPET_MOST_SLOTS], pointers[LIMPET_MOST_SLOTS + 1];
    bool is_watched; /* progress is shown */
};

static volatile sig_atomic_t is_stop_asked;

static void ask_to_stop(int signal_number)
{
    (void)signal_number;
    is_stop_asked = 1;
}

/* A write that a signal meets is made whole, so that no line is lost. */
static void listen_for_stop(void)
{
    struct sigaction action = {.sa_handler = ask_to_stop, .sa_flags = SA_RESTART};
    sigemptyset(&action.sa_mask);
    sigaction(SIGINT, &action, NULL);
    sigaction(SIGTERM, &action, NULL);
}

static void end_with_usage(void)
{
    fprintf(stderr, "usage: station BOOK ENTRY [WHERE] [--steps COUNT]\n"
                    "  BOOK    a file with a book of stretches\n"
                    "  ENTRY   the number of the stretch in it, from 1\n"
                    "  WHERE   where to go on, as a stopped station printed it: one of\n"
                    "            --number RANK\n"
                    "            --arrangement MODULE:SETTING,..\n"
                    "            --counters COUNTER,../POINTER,..\n"
                    "  COUNT   after how many steps to stop\n");
    exit(WRONG_ARGUMENTS);
}

static void end_with(const char *what, const char *why)
{
    fprintf(stderr, "station: %s: %s\n", what, why);
    exit(FAILED);
}

/* By the number of the refusal; those that aren't here are never met. */
static const char *const meanings[] = {
    [1] = "n is 0 or above 20",
    [2] = "k is 0 or above 8",
    [3] = "a round of this n and k has more than 2^64 - 1 arrangements",
    [4] = "the slots aren't as many as the stretch has",
    [5] = "a module is outside 1..n",
    [6] = "a module stands twice",
    [7] = "a setting is k or more",
    [8] = "the round has no such rank",
    [9] = "a flip length is 0 or above n",
    [10] = "it is no rank's board",
    [13] = "the book ends before its contents do",
    [14] = "the format isn't 1, or the entries aren't 1 to 64",
    [15] = "its offset isn't the expected one, or its count is 0 or above T",
    [16] = "the book doesn't end where its last body does",
    [18] = "the book has no such entry",
};

/* Answers what came back, and ends the station where that is a refusal of `what`; `of` has the place. */
static uint64_t accepted(uint64_t answer, const char *what, const char *of)
{
    const uint64_t number = LIMPET_NUMBER(answer), place = LIMPET_PLACE(answer);
    const bool is_known = number < sizeof meanings / sizeof meanings[0] && meanings[number] != NULL;
    if (number == 0)
        return answer;
    fprintf(stderr, "station: %s is refused by %" PRIu64, what, number);
    if (place != 0)
        fprintf(stderr, " at %s %" PRIu64, of, place);
    fprintf(stderr, ": %s\n", is_known ? meanings[number] : "no reason is known");
    exit(FAILED);
}

static const char *read_byte(const char *at, struct row *row)
{
    uint64_t number;
    if (row->length == sizeof row->bytes)
        return NULL;
    at = read_number(at, UINT8_MAX, &number);
    if (at != NULL)
        row->bytes[row->length++] = (uint8_t)number;
    return at;
}

/* Bytes with commas between, up to `end`; answers what stands behind that. */
static const char *read_row(const char *at, char end, struct row *row)
{
    do {
        at = read_byte(at, row);
        if (at == NULL)
            return NULL;
    } while (*at++ == ',');
    return at[-1] == end ? at : NULL;
}

static bool read_counters(const char *at, struct beginning *beginning)
{
    beginning->way = AFTER_COUNTERS;
    at = read_row(at, '/', &beginning->first);
    return at != NULL && read_row(at, '\0', &beginning->second) != NULL;
}

static bool read_arrangement(const char *at, struct beginning *beginning)
{
    beginning->way = AFTER_ARRANGEMENT;
    do {
        at = read_byte(at, &beginning->first);
        if (at == NULL || *at != ':')
            return false;
        at = read_byte(at + 1, &beginning->second);
        if (at == NULL)
            return false;
    } while (*at++ == ',');
    return at[-1] == '\0';
}

static bool read_whole_number(const char *at, uint64_t *number)
{
    at = read_number(at, UINT64_MAX, number);
    return at != NULL && *at == '\0';
}

/* False where the option isn't one, comes twice, or has a word that can't be read. */
static bool read_option(const char *option, const char *word, struct orders *orders)
{
    struct beginning *beginning = &orders->beginning;
    if (strcmp(option, "--steps") == 0 && !orders->are_steps_set) {
        orders->are_steps_set = true;
        return read_whole_number(word, &orders->steps);
    }
    if (beginning->way != AT_START)
        return false;
    if (strcmp(option, "--number") == 0) {
        beginning->way = AFTER_NUMBER;
        return read_whole_number(word, &beginning->number);
    }
    if (strcmp(option, "--arrangement") == 0)
        return read_arrangement(word, beginning);
    return strcmp(option, "--counters") == 0 && read_counters(word, beginning);
}

static struct orders read_orders(int argc, char *argv[])
{
    struct orders orders = {.steps = UINT64_MAX};
    uint64_t entry;
    if (argc < 3 || argc % 2 == 0 || !read_whole_number(argv[2], &entry))
        end_with_usage();
    orders.book = argv[1];
    orders.entry = entry;
    for (int i = 3; i < argc; i += 2)
        if (!read_option(argv[i], argv[i + 1], &orders))
            end_with_usage();
    return orders;
}

static void read_book(const char *name, struct book *book)
{
    FILE *const file = fopen(name, "rb");
    if (file == NULL)
        end_with(name, strerror(errno));
    book->length = fread(book->bytes, 1, sizeof book->bytes, file);
    if (ferror(file))
        end_with(name, strerror(errno));
    fclose(file);
}

/*
 * The buffers of a reading must have the entry's n bytes. Buffers of none are refused by 4, as the last thing
 * that can be refused, and so the book is good and its byte for n can be read.
 */
static size_t slots_of_entry(const struct book *book, const char *name, size_t entry)
{
    const uint64_t answer = limpet_book_read(book->bytes, book->length, entry, NULL, 0, NULL, 0);
    if (LIMPET_NUMBER(answer) != 4)
        accepted(answer, name, "entry");
    return book->bytes[2 + LIMPET_ENTRY_LENGTH * (entry - 1)];
}

/* The stretch of an entry, with its first arrangement in hand. */
static struct walk stretch_of(const struct book *book, const char *name, size_t entry)
{
    struct walk walk = {.is_watched = isatty(STDERR_FILENO)};
    const size_t n = slots_of_entry(book, name, entry);
    const uint64_t answer =
        limpet_book_read(book->bytes, book->length, entry, walk.modules, n, walk.settings, n);
    accepted(answer, name, "entry");
    walk.n = LIMPET_N(answer);
    walk.k = LIMPET_K(answer);
    walk.total = limpet_round_total(walk.n, walk.k);
    walk.start = walk.rank = limpet_book_rank(book->bytes, book->length, entry);
    walk.count = limpet_book_count(book->bytes, book->length, entry);
    walk.left = walk.count - 1;
    return walk;
}

/* The rank of what a stopped station printed. */
static uint64_t rank_of(const struct beginning *beginning, size_t n, size_t k)
{
    const uint8_t *first = beginning->first.bytes, *second = beginning->second.bytes;
    const size_t first_length = beginning->first.length, second_length = beginning->second.length;
    if (beginning->way == AFTER_NUMBER)
        return beginning->number;
    if (beginning->way == AFTER_ARRANGEMENT) {
        accepted(limpet_rank(n, k, first, first_length, second, second_length), "--arrangement", "slot");
        return limpet_rank_value(n, k, first, first_length, second, second_length);
    }
    accepted(limpet_board_read(n, k, first, first_length, second, second_length), "--counters", "slot");
    return limpet_board_read_rank(n, k, first, first_length, second, second_length);
}

/* Takes the arrangement of a rank in hand. A stretch meets no rank twice, so that tells what is left. */
static void go_to(struct walk *walk, uint64_t rank)
{
    const size_t n = walk->n, k = walk->k;
    accepted(limpet_unrank(n, k, rank, walk->modules, n, walk->settings, n), "--number", "slot");
    const uint64_t behind = rank >= walk->start ? rank - walk->start : walk->total - walk->start + rank;
    if (behind >= walk->count)
        end_with("it can't go on from there", "the stretch doesn't meet this arrangement");
    walk->rank = rank;
    walk->left = walk->count - 1 - behind;
}

static void clear_progress(const struct walk *walk)
{
    if (walk->is_watched)
        fprintf(stderr, "\r\033[K");
}

static void show_progress(const struct walk *walk)
{
    const uint64_t tried = walk->count - walk->left;
    if (!walk->is_watched)
        return;
    clear_progress(walk);
    fprintf(stderr, "%" PRIu64 " of %" PRIu64 " tried, %.1f %%", tried, walk->count,
            100 * (double)tried / (double)walk->count);
}

/* Ends the station where what was printed couldn't be written. */
static void hold_written(int printed)
{
    if (printed < 0)
        end_with("standard output", strerror(errno));
}

/* Tries the slots from the front up to this one. */
static void try_slots(const struct walk *walk, size_t last)
{
    for (size_t slot = 1; slot <= last; slot++) {
        const unsigned module = walk->modules[slot - 1], setting = walk->settings[slot - 1];
        if (has_rule(module, (unsigned)slot, setting))
            continue;
        clear_progress(walk);
        hold_written(printf("gap at %" PRIu64 ": %u:%u in slot %zu\n", walk->rank, module, setting, slot));
    }
}

static void step(struct walk *walk)
{
    const size_t n = walk->n, k = walk->k;
    const uint64_t answer = limpet_board_step(n, k, walk->counters, n, walk->pointers, n + 1);
    const uint64_t flip = LIMPET_FLIP(accepted(answer, "the board", "slot"));
    accepted(limpet_flip(n, k, flip, walk->modules, n, walk->settings, n), "the flip", "slot");
    walk->rank = LIMPET_CLOSED(answer) ? 0 : walk->rank + 1;
    walk->left--;
    try_slots(walk, flip);
}

/* Makes at most so many steps, and none after a stop is asked. */
static void walk_on(struct walk *walk, uint64_t steps)
{
    const size_t n = walk->n, k = walk->k;
    accepted(limpet_board_write(n, k, walk->rank, walk->counters, n, walk->pointers, n + 1), "the board",
             "slot");
    show_progress(walk);
    for (; steps > 0 && walk->left > 0 && !is_stop_asked; steps--) {
        step(walk);
        if (walk->left % STEPS_PER_PROGRESS == 0)
            show_progress(walk);
    }
    clear_progress(walk);
}

static void print_row(const char *before, const uint8_t *bytes, size_t length)
{
    for (size_t i = 0; i < length; i++)
        printf("%s%u", i == 0 ? before : ",", bytes[i]);
}

/* The three ways to go on; each line is an option and its word. */
static void print_stop(const struct walk *walk)
{
    printf("stopped at %" PRIu64 ", %" PRIu64 " of %" PRIu64 " left; to go on, add one of these:\n",
           walk->rank, walk->left, walk->count);
    printf("--number %" PRIu64 "\n", walk->rank);
    printf("--arrangement");
    for (size_t i = 0; i < walk->n; i++)
        printf("%c%u:%u", i == 0 ? ' ' : ',', walk->modules[i], walk->settings[i]);
    print_row("\n--counters ", walk->counters, walk->n);
    print_row("/", walk->pointers, walk->n + 1);
    printf("\n");
}

int main(int argc, char *argv[])
{
    static struct book book;
    const struct orders orders = read_orders(argc, argv);
    setvbuf(stdout, NULL, _IOLBF, BUFSIZ); /* a gap is on record when it is found */
    listen_for_stop();
    read_book(orders.book, &book);
    struct walk walk = stretch_of(&book, orders.book, orders.entry);
    if (orders.beginning.way == AT_START)
        try_slots(&walk, walk.n);
    else
        go_to(&walk, rank_of(&orders.beginning, walk.n, walk.k));
    walk_on(&walk, orders.steps);
    if (walk.left > 0)
        print_stop(&walk);
    else
        printf("done, all %" PRIu64 " are tried\n", walk.count);
    hold_written(fflush(stdout) == 0 && !ferror(stdout) ? 0 : -1);
    return walk.left > 0 ? STOPPED : DONE;
}
