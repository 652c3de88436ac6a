/* Good books, read and written again: see readings.h. */
#include "readings.h"

#include "calls.h"
#include "limpet.h"
#include "plans.h"
#include "reference.h"

#include <string.h>

/* What the library reads of an entry. */
static struct stretch stretch_read(struct bytes book, size_t entry)
{
    uint8_t modules[LIMPET_MOST_SLOTS], settings[LIMPET_MOST_SLOTS];
    const size_t n = book.at[entry_at(entry)];
    const uint64_t answer = limpet_book_read(book.at, book.length, entry, modules, n, settings, n);
    return (struct stretch){LIMPET_N(answer), LIMPET_K(answer),
                            limpet_book_rank(book.at, book.length, entry),
                            limpet_book_count(book.at, book.length, entry)};
}

static bool is_same_book(const struct book *a, struct bytes b)
{
    return a->length == b.length && memcmp(a->bytes, b.at, b.length) == 0;
}

/*
 * Has a good book written from what the library reads of it, which has to give the same bytes. One that was
 * the last so written is passed over.
 */
static void expect_written_again(struct bytes book)
{
    static struct book read;
    if (is_same_book(&read, book))
        return;
    read.entries = book.at[1];
    read.length = book.length;
    memcpy(read.bytes, book.at, book.length);
    for (size_t entry = 1; entry <= read.entries; entry++)
        read.stretches[entry - 1] = stretch_read(book, entry);
    const struct plan plan = plan_of(&read);
    const struct asked asked = asked_to_write(&plan);
    struct asked left = asked;
    left.book.at = read.bytes;
    expect(&book_write_call, &asked, answered(read.length), &left);
}

/* The three calls that read are tried on the same books, so that one of them is enough. */
static void meet_good_book(const struct call *call, struct bytes book)
{
    if (call == &book_read_call)
        expect_written_again(book);
}

void expect_entry(const struct call *call, const struct book *book, size_t entry)
{
    const struct stretch *stretch = &book->stretches[entry - 1];
    const size_t n = stretch->n, k = stretch->k;
    const struct asked asked = asked_for(book, entry);
    struct asked left = asked;
    meet_good_book(call, asked.book);
    if (is_plain(call)) {
        expect(call, &asked, call == &book_count_call ? stretch->count : stretch->rank, &left);
        return;
    }
    reference_unrank(n, k, stretch->rank, left.lent[MODULES].bytes, n, left.lent[SETTINGS].bytes, n);
    expect(call, &asked, answered(n | k << 8), &left);
}

void expect_every_entry(const struct call *call, const struct book *book)
{
    for (size_t entry = 1; entry <= book->entries; entry++)
        expect_entry(call, book, entry);
}

uint64_t ask_reading(const struct call *call, struct asked *asked)
{
    const uint64_t answer = ask(call, asked);
    if (LIMPET_NUMBER(answer) == 0)
        meet_good_book(call, asked->book);
    return answer;
}
