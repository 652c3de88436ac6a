/* The reference of the planner's programs: see reference_planner.h. */
#include "reference_planner.h"

#include "reference.h"
#include "reference_book.h"
#include "reference_listing.h"

#include <inttypes.h>
#include <stdio.h>

enum { N, K, RANK, COUNT, NUMBERS, MOST_LINES = 65, MOST_SLOTS = 20, HEAD = 2, ENTRY = 14 };

static void refuse(uint64_t answer, struct printed *printed)
{
    printed->length = 0;
    sprintf(printed->errors, "refused %" PRIu64 " %" PRIu64 "\n", answer & 0xff, answer >> 8 & 0xff);
}

static uint8_t byte_of(uint64_t size)
{
    return (uint8_t)(size > UINT8_MAX ? UINT8_MAX : size);
}

static void put_least_first(uint8_t bytes[8], uint64_t number)
{
    for (size_t i = 0; i < 8; i++)
        bytes[i] = (uint8_t)(number >> 8 * i);
}

/* No line behind the 65th is looked at: as many are refused, whatever follows. */
void reference_planner_write(const char *input, size_t length, struct printed *printed)
{
    uint8_t ns[MOST_LINES], ks[MOST_LINES], ranks[8 * MOST_LINES], counts[8 * MOST_LINES];
    const char *at = input, *const end = input + length;
    size_t lines = 0;
    for (uint64_t numbers[NUMBERS]; at < end && lines < MOST_LINES; lines++) {
        if (!reference_line(&at, end, numbers)) {
            refuse(refused(17, lines + 1), printed);
            return;
        }
        ns[lines] = byte_of(numbers[N]);
        ks[lines] = byte_of(numbers[K]);
        put_least_first(ranks + 8 * lines, numbers[RANK]);
        put_least_first(counts + 8 * lines, numbers[COUNT]);
    }
    const uint64_t answer = reference_book_write(ns, lines, ks, lines, ranks, 8 * lines, counts, 8 * lines,
                                                 (uint8_t *)printed->output, PRINTED_MOST);
    printed->length = answer >> 16;
    printed->errors[0] = '\0';
    if ((answer & 0xff) != 0)
        refuse(answer, printed);
}

static char *put_line(char *at, const uint8_t *book, size_t length, size_t entry)
{
    uint8_t modules[MOST_SLOTS], settings[MOST_SLOTS];
    const uint8_t *const sizes = book + HEAD + ENTRY * (entry - 1);
    reference_book_read(book, length, entry, modules, sizes[0], settings, sizes[0]);
    at += sprintf(at, "%u %u %" PRIu64 " %" PRIu64, sizes[0], sizes[1],
                  reference_book_count(book, length, entry), reference_book_rank(book, length, entry));
    for (size_t i = 0; i < sizes[0]; i++)
        at += sprintf(at, " %u:%u", modules[i], settings[i]);
    return at + sprintf(at, "\n");
}

/* A reading into no buffers is refused by 4 where the book is good. */
void reference_planner_read(const char *input, size_t length, struct printed *printed)
{
    const uint8_t *const book = (const uint8_t *)input;
    const uint64_t answer = reference_book_read(book, length, 1, NULL, 0, NULL, 0);
    char *at = printed->output;
    printed->errors[0] = '\0';
    if (answer != refused(4, 0)) {
        refuse(answer, printed);
        return;
    }
    for (size_t entry = 1; entry <= book[1]; entry++)
        at = put_line(at, book, length, entry);
    printed->length = (size_t)(at - printed->output);
}
