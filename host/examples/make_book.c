/*
 * Makes a book and writes it to standard output:
 *
 *    make_book N K RANK COUNT [N K RANK COUNT]..
 *
 * Each four numbers are an entry: the stretch of COUNT arrangements of N modules with K settings, from number
 * RANK on. Exit status 1 where a stretch is refused or the book can't be written, 2 where the arguments are
 * wrong.
 */
#include "limpet.h"
#include "numbers.h"

#include <inttypes.h>
#include <stdio.h>
#include <stdlib.h>

enum { N, K, RANK, COUNT, NUMBERS };

/* The lists of stretches that limpet_book_write takes. */
struct lists {
    uint8_t ns[LIMPET_MOST_ENTRIES], ks[LIMPET_MOST_ENTRIES];
    uint8_t ranks[8 * LIMPET_MOST_ENTRIES], counts[8 * LIMPET_MOST_ENTRIES];
};

static void end_with_usage(void)
{
    fprintf(stderr, "usage: make_book N K RANK COUNT [N K RANK COUNT]..   for 1 to %d stretches\n",
            LIMPET_MOST_ENTRIES);
    exit(2);
}

/* What a byte can't hold is refused as 255 is. */
static uint8_t byte_of(uint64_t size)
{
    return (uint8_t)(size > UINT8_MAX ? UINT8_MAX : size);
}

static void put(uint8_t *list, size_t index, uint64_t number)
{
    for (size_t i = 0; i < 8; i++)
        list[8 * index + i] = (uint8_t)(number >> 8 * i);
}

static void put_stretch(struct lists *lists, size_t index, const uint64_t numbers[NUMBERS])
{
    lists->ns[index] = byte_of(numbers[N]);
    lists->ks[index] = byte_of(numbers[K]);
    put(lists->ranks, index, numbers[RANK]);
    put(lists->counts, index, numbers[COUNT]);
}

static void read_numbers(char *const words[NUMBERS], uint64_t numbers[NUMBERS])
{
    for (size_t i = 0; i < NUMBERS; i++) {
        const char *rest = read_number(words[i], UINT64_MAX, &numbers[i]);
        if (rest == NULL || *rest != '\0')
            end_with_usage();
    }
}

int main(int argc, char *argv[])
{
    static struct lists lists;
    static uint8_t book[LIMPET_MOST_BOOK];
    const size_t words = (size_t)argc - 1, stretches = words / NUMBERS;
    if (argc < 1 || words % NUMBERS != 0 || stretches < 1 || stretches > LIMPET_MOST_ENTRIES)
        end_with_usage();
    for (size_t i = 0; i < stretches; i++) {
        uint64_t numbers[NUMBERS];
        read_numbers(argv + 1 + i * NUMBERS, numbers);
        put_stretch(&lists, i, numbers);
    }
    const uint64_t answer = limpet_book_write(lists.ns, stretches, lists.ks, stretches, lists.ranks,
                                              8 * stretches, lists.counts, 8 * stretches, book, sizeof book);
    if (LIMPET_NUMBER(answer) != 0) {
        fprintf(stderr, "make_book: stretch %" PRIu64 " is refused by %" PRIu64 "\n", LIMPET_PLACE(answer),
                LIMPET_NUMBER(answer));
        return 1;
    }
    if (fwrite(book, 1, LIMPET_VALUE(answer), stdout) == LIMPET_VALUE(answer) && fflush(stdout) == 0)
        return 0;
    perror("make_book: standard output");
    return 1;
}
