/*
 * Times the library's calls beside plain C of the same job, the reference of the tests, in one run and on
 * the same inputs. A call is timed by its entry in `entries`.
 */
#define _POSIX_C_SOURCE 199309L /* clock_gettime */

#include "books.h"
#include "calls.h"
#include "limpet.h"
#include "plans.h"
#include "reference.h"
#include "reference_board.h"
#include "reference_pair.h"
#include "stretches.h"

#include <stdio.h>
#include <stdlib.h>
#include <string.h>
#include <time.h>

enum { INPUTS = 4096, LONG_INPUTS = 4, BOOK_INPUTS = 64, ROUNDS = 31, ROOM = 24 };

/*
 * The plain C is the call's reference, or `plain` where that is set. It has the checks of the library's call;
 * `unchecked` is the same without, where there is one.
 */
struct entry {
    const struct call *call;
    struct function plain, unchecked;
    struct asked (*asked_with)(size_t n, size_t k); /* in place of the call's `fair` */
    size_t inputs;                                  /* in place of INPUTS */
    size_t parts;     /* where it is set, the time is that of one of as many parts of a call */
    const char *name; /* in place of the call's */
};

static const struct entry entries[] = {
    {.call = &round_call},
    {.call = &total_call},
    {.call = &check_call},
    {.call = &flip_call, .unchecked.writing = unchecked_flip},
    {.call = &look_call},
    {.call = &next_call, .unchecked.changing = unchecked_next},
    {.call = &rank_call},
    {.call = &value_call, .unchecked.reading = unchecked_rank_value},
    {.call = &unrank_call, .unchecked.writing = unchecked_unrank},
    {.call = &board_write_call},
    {.call = &board_step_call, .unchecked.changing = unchecked_board_step},
    {.call = &board_read_call},
    {.call = &board_read_rank_call, .unchecked.reading = unchecked_board_read_rank},
    {.call = &pair_call,
     .plain.counting = stepped_pair_count,
     .asked_with = longest_stretch,
     .inputs = LONG_INPUTS,
     .parts = LIMPET_MOST_COUNTED},
    {.call = &book_read_call, .asked_with = book_of_one},
    {.call = &book_count_call, .asked_with = book_of_one},
    {.call = &book_rank_call, .asked_with = book_of_one},
    {.call = &book_read_call, .asked_with = book_of_most, .inputs = BOOK_INPUTS, .name = "book read of 64"},
    {.call = &book_count_call, .asked_with = book_of_most, .inputs = BOOK_INPUTS, .name = "book count of 64"},
    {.call = &book_rank_call, .asked_with = book_of_most, .inputs = BOOK_INPUTS, .name = "book rank of 64"},
    {.call = &book_write_call, .asked_with = plan_of_one},
    {.call = &book_write_call, .asked_with = plan_of_most, .inputs = BOOK_INPUTS, .name = "book write of 64"},
};

static const struct {
    size_t n, k;
} sizes[] = {{20, 1}, {16, 2}, {11, 8}};

/* What a call is asked once for each input, and has written. A call that leads on walks from the first. */
struct batch {
    size_t n, k, lengths[ROWS], size;
    struct input {
        uint64_t argument, count;
        struct pair pair;
        size_t book_length;
        uint8_t *book;
        struct bytes lists[LISTS];
        uint8_t rows[ROWS][ROOM];
    } inputs[INPUTS];
};

/* The books of a batch, one behind the other, and so the lists: as many of one entry, or fewer of 64. */
enum { LISTED = 1 + 1 + 8 + 8 };
static uint8_t shelf[INPUTS * (2 + LIMPET_ENTRY_LENGTH + LIMPET_MOST_SLOTS)], listed[INPUTS * LISTED];
_Static_assert(sizeof shelf >= (size_t)BOOK_INPUTS * LIMPET_MOST_BOOK, "the longest books have room");
_Static_assert(sizeof listed >= (size_t)BOOK_INPUTS * LIMPET_MOST_ENTRIES * LISTED, "so have the lists");

/* Puts bytes where `end` is, and that behind them; answers where they are. */
static uint8_t *put_away(uint8_t **end, struct bytes bytes)
{
    uint8_t *const at = *end;
    if (bytes.length > 0)
        memcpy(at, bytes.at, bytes.length);
    *end += bytes.length;
    return at;
}

static void prepare(struct batch *batch, const struct entry *entry, size_t n, size_t k)
{
    batch->n = n;
    batch->k = k;
    batch->size = entry->inputs != 0 ? entry->inputs : INPUTS;
    uint8_t *end_of_books = shelf, *end_of_lists = listed;
    for (struct input *in = batch->inputs; in < batch->inputs + batch->size; in++) {
        const struct asked asked = (entry->asked_with != NULL ? entry->asked_with : entry->call->fair)(n, k);
        in->argument = asked.argument;
        in->count = asked.count;
        in->pair = asked.pair;
        in->book_length = asked.book.length;
        in->book = put_away(&end_of_books, asked.book);
        for (size_t i = 0; i < LISTS; i++)
            in->lists[i] = (struct bytes){asked.lists[i].length, put_away(&end_of_lists, asked.lists[i])};
        for (size_t i = 0; i < ROWS; i++) {
            batch->lengths[i] = asked.lent[i].length;
            memcpy(in->rows[i], asked.lent[i].bytes, ROOM);
        }
    }
}

/* Makes the call as often as there are inputs, and answers the sum of the answers. */
static uint64_t call_all(const struct function *function, struct batch *batch)
{
    const size_t n = batch->n, k = batch->k, first = batch->lengths[0], second = batch->lengths[1];
    struct input *const end = batch->inputs + batch->size;
    uint64_t sum = 0;
    if (function->of_sizes != NULL)
        for (struct input *in = batch->inputs; in < end; in++)
            sum += function->of_sizes(n, k);
    else if (function->reading != NULL)
        for (struct input *in = batch->inputs; in < end; in++)
            sum += function->reading(n, k, in->rows[0], first, in->rows[1], second);
    else if (function->changing != NULL)
        for (struct input *in = batch->inputs, *at = in; in < end; in++)
            sum += function->changing(n, k, at->rows[0], first, at->rows[1], second);
    else if (function->counting != NULL)
        for (struct input *in = batch->inputs; in < end; in++)
            sum += function->counting(n, k, in->argument, in->count, in->pair.v, in->pair.c, in->pair.w,
                                      in->pair.e);
    else if (function->of_book != NULL)
        for (struct input *in = batch->inputs; in < end; in++)
            sum += function->of_book(in->book, in->book_length, in->argument);
    else if (function->from_book != NULL)
        for (struct input *in = batch->inputs; in < end; in++)
            sum += function->from_book(in->book, in->book_length, in->argument, in->rows[0], first,
                                       in->rows[1], second);
    else if (function->to_book != NULL)
        for (struct input *in = batch->inputs; in < end; in++)
            sum += function->to_book(in->lists[NS].at, in->lists[NS].length, in->lists[KS].at,
                                     in->lists[KS].length, in->lists[RANKS].at, in->lists[RANKS].length,
                                     in->lists[COUNTS].at, in->lists[COUNTS].length, in->book,
                                     in->book_length);
    else
        for (struct input *in = batch->inputs; in < end; in++)
            sum += function->writing(n, k, in->argument, in->rows[0], first, in->rows[1], second);
    return sum;
}

static double now_in_ns(void)
{
    struct timespec now;
    clock_gettime(CLOCK_MONOTONIC, &now);
    return (double)now.tv_sec * 1e9 + (double)now.tv_nsec;
}

/* Every byte counts, by its place. */
static uint64_t digest_of(const struct batch *batch, uint64_t digest)
{
    for (const struct input *in = batch->inputs; in < batch->inputs + batch->size; in++)
        for (size_t i = 0; i < ROWS; i++)
            for (size_t place = 0; place < ROOM; place++)
                digest = digest * 0x100000001b3 + in->rows[i][place];
    for (size_t place = 0; place < sizeof shelf; place++)
        digest = digest * 0x100000001b3 + shelf[place];
    return digest;
}

/* The ns of one call; `digest` is of the answers and of what was written. */
static double timed(const struct function *function, const struct batch *prepared, uint64_t *digest)
{
    static struct batch batch;
    static volatile uint64_t sink;
    batch = *prepared;
    if (function->to_book != NULL)
        memset(shelf, 0, sizeof shelf); /* nothing of what was written before is left */
    const double began = now_in_ns();
    sink = call_all(function, &batch);
    const double took = now_in_ns() - began;
    *digest = digest_of(&batch, sink);
    return took / (double)batch.size;
}

enum { LIBRARY, PLAIN, UNCHECKED, COLUMNS };

static bool is_set(const struct function *function)
{
    return function->of_sizes != NULL || function->reading != NULL || function->changing != NULL ||
           function->writing != NULL || function->counting != NULL || function->of_book != NULL ||
           function->from_book != NULL || function->to_book != NULL;
}

/* The best time of each column; ends the program where two columns differ in what they answer or write. */
static void time_columns(const struct function *const columns[COLUMNS], const struct batch *prepared,
                         double best[COLUMNS])
{
    uint64_t digests[COLUMNS];
    for (int round = 0; round < ROUNDS; round++)
        for (size_t i = 0; i < COLUMNS && is_set(columns[i]); i++) {
            const double took = timed(columns[i], prepared, &digests[i]);
            best[i] = round == 0 || took < best[i] ? took : best[i];
            if (digests[i] != digests[LIBRARY]) {
                printf("the library and the plain C differ\n");
                exit(1);
            }
        }
}

static void time_entry(const struct entry *entry, size_t n, size_t k)
{
    static struct batch prepared;
    const struct function *const plain = is_set(&entry->plain) ? &entry->plain : &entry->call->reference;
    const struct function *const columns[COLUMNS] = {&entry->call->library, plain, &entry->unchecked};
    const double parts = entry->parts != 0 ? (double)entry->parts : 1;
    double best[COLUMNS];
    prepare(&prepared, entry, n, k);
    time_columns(columns, &prepared, best);
    printf("%-16s %3zu %3zu %9.1f %9.1f %19.2f", entry->name != NULL ? entry->name : entry->call->name, n, k,
           best[LIBRARY] / parts, best[PLAIN] / parts, best[LIBRARY] / best[PLAIN]);
    if (is_set(&entry->unchecked))
        printf(" %11.1f %21.2f", best[UNCHECKED] / parts, best[LIBRARY] / best[UNCHECKED]);
    printf("\n");
}

int main(void)
{
    printf("library  %s\n", LIBRARY_NAME);
    printf("plain C  the reference of the tests, by %s (%s)\n", PLAIN_COMPILER, __VERSION__);
    printf("ns per call, the best of %d rounds over %d random inputs, or steps of a walk\n", ROUNDS, INPUTS);
    printf("pair count: ns per arrangement of %d stretches of %d, and the plain C steps by counters\n",
           LONG_INPUTS, LIMPET_MOST_COUNTED);
    printf("book: one entry or stretch, or 64 of the same size in %d books\n\n", BOOK_INPUTS);
    printf("%-16s %3s %3s %9s %9s %19s %11s %21s\n", "call", "n", "k", "library", "plain C",
           "library / plain C", "unchecked C", "library / unchecked C");
    for (size_t i = 0; i < COUNT_OF(entries); i++)
        for (size_t j = 0; j < COUNT_OF(sizes); j++)
            time_entry(&entries[i], sizes[j].n, sizes[j].k);
    return 0;
}
