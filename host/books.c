/* Books to ask with: see books.h. */
#include "books.h"

#include "reference.h"

#include <string.h>

enum { HEAD = 2, OFFSET_AT = 2, OFFSET_LENGTH = 4, COUNT_AT = 6, COUNT_LENGTH = 8, SETTING_WEIGHT = 32 };
enum { FEW_ENTRIES = 4 };

const struct book worked_book = {
    .entries = 3,
    .stretches = {{2, 2, 6, 3}, {2, 3, 17, 18}, {1, 1, 0, 1}},
    .length = 49,
    .bytes = {1,  3,                                        /* the format and E */
              2,  2,  44, 0, 0, 0, 3,  0, 0, 0, 0, 0, 0, 0, /* n, k, the offset and the count */
              2,  3,  46, 0, 0, 0, 18, 0, 0, 0, 0, 0, 0, 0,
              1,  1,  48, 0, 0, 0, 1,  0, 0, 0, 0, 0, 0, 0,
              2,  33,                                       /* the bodies */
              66, 65,
              1},
};

const struct book worked_count = {
    .entries = 1,
    .stretches = {{20, 1, 0, 0x2122334455667788}},
    .length = 36,
    .bytes = {1, 1, 20, 1, 16, 0, 0, 0, 0x88, 0x77, 0x66, 0x55, 0x44, 0x33, 0x22, 0x21,
              1, 2, 3, 4, 5, 6, 7, 8, 9, 10, 11, 12, 13, 14, 15, 16, 17, 18, 19, 20},
};

size_t entry_at(size_t entry)
{
    return HEAD + LIMPET_ENTRY_LENGTH * (entry - 1);
}

size_t body_at(const struct book *book, size_t entry)
{
    size_t at = entry_at(book->entries + 1);
    for (size_t i = 0; i < entry - 1; i++)
        at += book->stretches[i].n;
    return at;
}

void put_number(uint8_t *bytes, size_t length, uint64_t number)
{
    for (size_t i = 0; i < length; i++, number >>= 8)
        bytes[i] = (uint8_t)number;
}

uint64_t get_number(const uint8_t *bytes, size_t length)
{
    uint64_t number = 0;
    while (length-- > 0)
        number = number << 8 | bytes[length];
    return number;
}

static void put_offset(struct book *book, size_t entry, uint64_t offset)
{
    put_number(book->bytes + entry_at(entry) + OFFSET_AT, OFFSET_LENGTH, offset);
}

static void put_count(struct book *book, size_t entry, uint64_t count)
{
    put_number(book->bytes + entry_at(entry) + COUNT_AT, COUNT_LENGTH, count);
}

static void put_slot(uint8_t *slot, size_t module, size_t setting)
{
    *slot = (uint8_t)(setting * SETTING_WEIGHT + module);
}

/* Home, where the size has no such rank. */
static void put_body(uint8_t *body, const struct stretch *stretch)
{
    const size_t n = stretch->n;
    uint8_t modules[LIMPET_MOST_SLOTS], settings[LIMPET_MOST_SLOTS];
    for (size_t i = 0; i < n; i++) {
        modules[i] = (uint8_t)(i + 1);
        settings[i] = 0;
    }
    reference_unrank(n, stretch->k, stretch->rank, modules, n, settings, n);
    for (size_t i = 0; i < n; i++)
        put_slot(body + i, modules[i], settings[i]);
}

void write_book(struct book *book)
{
    book->bytes[0] = 1;
    book->bytes[1] = (uint8_t)book->entries;
    size_t body = entry_at(book->entries + 1);
    for (size_t entry = 1; entry <= book->entries; entry++) {
        const struct stretch *stretch = &book->stretches[entry - 1];
        book->bytes[entry_at(entry)] = (uint8_t)stretch->n;
        book->bytes[entry_at(entry) + 1] = (uint8_t)stretch->k;
        put_offset(book, entry, body);
        put_count(book, entry, stretch->count);
        put_body(book->bytes + body, stretch);
        body += stretch->n;
    }
    book->length = body;
    for (size_t i = 0; i < SPARE; i++)
        book->bytes[body + i] = (uint8_t)draw(256);
}

struct stretch stretch_of_size(size_t n, size_t k)
{
    const uint64_t total = reference_round_total(n, k), below = total == 0 ? UINT64_MAX : total;
    return (struct stretch){n, k, draw(below), 1 + draw(below)};
}

static struct stretch stretch_of_any_size(void)
{
    size_t n, k;
    do {
        n = 1 + draw(LIMPET_MOST_SLOTS);
        k = 1 + draw(LIMPET_MOST_SETTINGS);
    } while (reference_round(n, k) != 0);
    return stretch_of_size(n, k);
}

struct book book_of(size_t entries)
{
    struct book book = {.entries = entries};
    for (size_t i = 0; i < entries; i++)
        book.stretches[i] = stretch_of_any_size();
    write_book(&book);
    return book;
}

struct asked asked_for(const struct book *book, size_t entry)
{
    const struct stretch *stretch = &book->stretches[entry - 1];
    struct asked asked = {.n = stretch->n, .k = stretch->k, .argument = entry};
    asked.book = (struct bytes){book->length, book->bytes};
    asked.lent[MODULES].length = asked.lent[SETTINGS].length = stretch->n;
    memset(asked.lent[MODULES].bytes, (int)draw(256), ROW_MOST);
    memset(asked.lent[SETTINGS].bytes, (int)draw(256), ROW_MOST);
    return asked;
}

static struct book lent_book; /* by random_book */

struct asked random_book(size_t n, size_t k)
{
    lent_book.entries = 1 + draw(draw(8) == 0 ? LIMPET_MOST_ENTRIES : FEW_ENTRIES);
    const size_t entry = 1 + draw(lent_book.entries);
    for (size_t i = 0; i < lent_book.entries; i++)
        lent_book.stretches[i] = i == entry - 1 ? stretch_of_size(n, k) : stretch_of_any_size();
    write_book(&lent_book);
    return asked_for(&lent_book, entry);
}

/* In a book of as many entries of one size. */
static struct asked book_of_size(size_t entries, size_t n, size_t k)
{
    static struct book book;
    book.entries = entries;
    for (size_t i = 0; i < entries; i++)
        book.stretches[i] = stretch_of_size(n, k);
    write_book(&book);
    return asked_for(&book, 1 + draw(entries));
}

struct asked book_of_one(size_t n, size_t k)
{
    return book_of_size(1, n, k);
}

struct asked book_of_most(size_t n, size_t k)
{
    return book_of_size(LIMPET_MOST_ENTRIES, n, k);
}

/* Several have the low bits of the good one, and one has its bytes the other way round. */
uint64_t bad_offset(size_t which, uint64_t good)
{
    const uint64_t byte = 1 << 8, half = 1 << 16, top = (uint64_t)1 << 31;
    const uint64_t turned = (good & 0xff) << 24 | (good >> 8 & 0xff) << 16;
    const uint64_t all[BAD_OFFSETS] = {0,           good - 1,           good + 1,   2 * good,   good + byte,
                                       good + half, good + half * byte, good + top, UINT32_MAX, turned};
    return all[which];
}

uint64_t bad_count(size_t which, uint64_t good, uint64_t total)
{
    const uint64_t word = (uint64_t)1 << 32, top = (uint64_t)1 << 63; /* every T is below 2^63 */
    const uint64_t all[BAD_COUNTS] = {0,          total + 1, 2 * total,   total + word,
                                      top | good, top,       top | total, UINT64_MAX};
    return all[which];
}

bool is_of_contents(enum fault fault)
{
    return fault >= BAD_N && fault <= BAD_ENTRY;
}

bool is_of_body(enum fault fault)
{
    return fault >= BAD_MODULE && fault <= BAD_SETTING;
}

uint8_t byte_beyond(size_t most, size_t end)
{
    return (uint8_t)(draw(4) == 0 ? 0 : end - draw(end - most));
}

void enlarge(uint8_t sizes[2])
{
    do {
        sizes[0] = (uint8_t)(1 + draw(LIMPET_MOST_SLOTS));
        sizes[1] = (uint8_t)(1 + draw(LIMPET_MOST_SETTINGS));
    } while (reference_round(sizes[0], sizes[1]) != refused(3, 0));
}

static void spoil_contents(struct book *book, enum fault fault, size_t entry)
{
    const struct stretch *stretch = &book->stretches[entry - 1];
    const uint64_t total = reference_round_total(stretch->n, stretch->k);
    uint8_t *bytes = book->bytes + entry_at(entry);
    if (fault == BAD_N)
        bytes[0] = byte_beyond(LIMPET_MOST_SLOTS, UINT8_MAX);
    else if (fault == BAD_K)
        bytes[1] = byte_beyond(LIMPET_MOST_SETTINGS, UINT8_MAX);
    else if (fault == TOO_LARGE)
        enlarge(bytes);
    else if (draw(2) == 0)
        put_offset(book, entry, bad_offset(draw(BAD_OFFSETS), body_at(book, entry)));
    else
        put_count(book, entry, bad_count(draw(BAD_COUNTS), stretch->count, total));
}

static void spoil_body(struct book *book, enum fault fault, size_t entry)
{
    const struct stretch *stretch = &book->stretches[entry - 1];
    uint8_t *body = book->bytes + body_at(book, entry);
    const size_t n = stretch->n, slot = draw(n), other = n == 1 ? slot : (slot + 1 + draw(n - 1)) % n;
    const size_t module = body[slot] % SETTING_WEIGHT, setting = body[slot] / SETTING_WEIGHT;
    if (fault == BAD_MODULE)
        put_slot(body + slot, byte_beyond(n, SETTING_WEIGHT - 1), setting);
    else if (fault == MODULE_TWICE)
        put_slot(body + slot, body[other] % SETTING_WEIGHT, setting);
    else
        put_slot(body + slot, module, LIMPET_MOST_SETTINGS - 1 - draw(LIMPET_MOST_SETTINGS - stretch->k));
}

static void spoil_end(struct book *book)
{
    const size_t bodies = entry_at(book->entries + 1), end = body_at(book, book->entries + 1);
    book->length = draw(2) == 0 ? bodies + draw(end - bodies) : end + 1 + draw(SPARE);
}

void spoil_book(struct book *book, enum fault fault, size_t entry)
{
    if (is_of_contents(fault))
        spoil_contents(book, fault, entry);
    else if (is_of_body(fault))
        spoil_body(book, fault, entry);
    else if (fault == UNDER_TWO_BYTES)
        book->length = draw(HEAD);
    else if (fault == CONTENTS_CUT)
        book->length = HEAD + draw(entry_at(book->entries + 1) - HEAD);
    else if (fault == BAD_END)
        spoil_end(book);
    else if (fault == BAD_HEAD && draw(2) == 0)
        book->bytes[0] = byte_beyond(1, UINT8_MAX);
    else if (fault == BAD_HEAD)
        book->bytes[1] = byte_beyond(LIMPET_MOST_ENTRIES, UINT8_MAX);
}

void spoil_asked(struct asked *asked, enum fault fault, size_t entries)
{
    size_t *length = &asked->lent[draw(ROWS)].length;
    if (fault == NO_ENTRY)
        asked->argument = beyond(draw(BEYOND), asked->argument, entries);
    else if (fault == BAD_LENGTH)
        *length = draw(2) == 0 ? draw(asked->n) : asked->n + 1 + draw(LIMPET_MOST_SLOTS);
}

static bool can_have(const struct stretch *stretch, enum fault fault)
{
    return (fault != MODULE_TWICE || stretch->n > 1) &&
           (fault != BAD_SETTING || stretch->k < LIMPET_MOST_SETTINGS);
}

void spoil_random_book(const struct call *call, struct asked *asked)
{
    (void)call;
    for (size_t fault = FAULTS; fault-- > 0;) {
        const size_t entry = 1 + draw(lent_book.entries);
        if (draw(8) != 0 || !can_have(&lent_book.stretches[entry - 1], (enum fault)fault))
            continue;
        spoil_book(&lent_book, (enum fault)fault, entry);
        spoil_asked(asked, (enum fault)fault, lent_book.entries);
    }
    asked->book.length = lent_book.length;
}
