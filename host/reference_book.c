/* The reference of books: see reference_book.h. */
#include "reference_book.h"

#include "reference.h"

#include <stdbool.h>

enum { DONE = 0, MOST_SLOTS = 20, MOST_ENTRIES = 64, HEAD = 2, ENTRY = 14, OFFSET_AT = 2, COUNT_AT = 6 };

/* An entry of the contents, and where its body has to begin. */
struct entry {
    size_t n, k, body;
    uint64_t offset, count;
};

/* The entries of a book; entry 1 is the first. */
struct contents {
    size_t number;
    struct entry entries[MOST_ENTRIES];
};

struct arrangement {
    uint8_t modules[MOST_SLOTS], settings[MOST_SLOTS];
};

static uint64_t least_first(const uint8_t *bytes, size_t length)
{
    uint64_t number = 0;
    for (size_t i = 0; i < length; i++)
        number |= (uint64_t)bytes[i] << 8 * i;
    return number;
}

/* 13 and 14; the entries are read on the way. */
static uint64_t read_contents(const uint8_t *book, size_t book_length, struct contents *contents)
{
    contents->number = 0;
    if (book_length < HEAD)
        return refused(13, 0);
    if (book[0] != 1 || book[1] < 1 || book[1] > MOST_ENTRIES)
        return refused(14, 0);
    contents->number = book[1];
    if (book_length < HEAD + contents->number * ENTRY)
        return refused(13, 0);
    size_t body = HEAD + contents->number * ENTRY;
    for (size_t i = 0; i < contents->number; i++) {
        const uint8_t *bytes = book + HEAD + i * ENTRY;
        contents->entries[i] = (struct entry){.n = bytes[0],
                                              .k = bytes[1],
                                              .body = body,
                                              .offset = least_first(bytes + OFFSET_AT, 4),
                                              .count = least_first(bytes + COUNT_AT, 8)};
        body += bytes[0];
    }
    return DONE;
}

/* 1, 2, 3 and 15 of one entry, without its place. */
static uint64_t check_entry(const struct entry *entry)
{
    const uint64_t answer = reference_round(entry->n, entry->k);
    if (answer != DONE)
        return answer;
    const bool good_count = entry->count >= 1 && entry->count <= reference_round_total(entry->n, entry->k);
    return entry->offset == entry->body && good_count ? DONE : refused(15, 0);
}

static struct arrangement body_of(const uint8_t *book, const struct entry *entry)
{
    struct arrangement at;
    for (size_t i = 0; i < entry->n; i++) {
        at.modules[i] = book[entry->body + i] % 32;
        at.settings[i] = book[entry->body + i] / 32;
    }
    return at;
}

/* 5, 6 and 7 of one body; the place is the slot. */
static uint64_t check_body(const uint8_t *book, const struct entry *entry)
{
    const struct arrangement at = body_of(book, entry);
    return reference_check(entry->n, entry->k, at.modules, entry->n, at.settings, entry->n);
}

static uint64_t with_place(uint64_t answer, size_t place)
{
    return refused(answer & 0xff, place);
}

/* All that is wrong with a book, whichever entry is asked for: 13 to 16, 1 to 3, and 5 to 7. */
static uint64_t check_book(const uint8_t *book, size_t book_length, struct contents *contents)
{
    uint64_t answer = read_contents(book, book_length, contents);
    if (answer != DONE)
        return answer;
    for (size_t i = 0; i < contents->number; i++)
        if ((answer = check_entry(&contents->entries[i])) != DONE)
            return with_place(answer, i + 1);
    const struct entry *last = &contents->entries[contents->number - 1];
    if (book_length != last->body + last->n)
        return refused(16, 0);
    for (size_t i = 0; i < contents->number; i++)
        if ((answer = check_body(book, &contents->entries[i])) != DONE)
            return with_place(answer, i + 1);
    return DONE;
}

/* All of that, and 18; the entry asked for is found on the way. */
static uint64_t find_entry(const uint8_t *book, size_t book_length, size_t number, struct entry *entry)
{
    struct contents contents;
    const uint64_t answer = check_book(book, book_length, &contents);
    if (answer != DONE)
        return answer;
    if (number < 1 || number > contents.number)
        return refused(18, 0);
    *entry = contents.entries[number - 1];
    return DONE;
}

uint64_t reference_book_read(const uint8_t *book, size_t book_length, size_t entry, uint8_t *modules,
                             size_t modules_length, uint8_t *settings, size_t settings_length)
{
    struct entry found;
    const uint64_t answer = find_entry(book, book_length, entry, &found);
    if (answer != DONE)
        return answer;
    if (modules_length != found.n || settings_length != found.n)
        return refused(4, 0);
    const struct arrangement at = body_of(book, &found);
    for (size_t i = 0; i < found.n; i++) {
        modules[i] = at.modules[i];
        settings[i] = at.settings[i];
    }
    return answered(found.n | found.k << 8);
}

uint64_t reference_book_count(const uint8_t *book, size_t book_length, size_t entry)
{
    struct entry found;
    return find_entry(book, book_length, entry, &found) == DONE ? found.count : 0;
}

uint64_t reference_book_rank(const uint8_t *book, size_t book_length, size_t entry)
{
    struct entry found;
    if (find_entry(book, book_length, entry, &found) != DONE)
        return 0;
    const struct arrangement at = body_of(book, &found);
    return reference_rank_value(found.n, found.k, at.modules, found.n, at.settings, found.n);
}

/* The lists of a book's stretches; the first has index 0. */
struct lists {
    size_t number;
    const uint8_t *ns, *ks, *ranks, *counts;
};

static uint64_t number_in(const uint8_t *list, size_t index)
{
    return least_first(list + 8 * index, 8);
}

/* 1, 2, 3, 8 and 15 of one stretch, without its place. */
static uint64_t check_stretch(const struct lists *lists, size_t index)
{
    const size_t n = lists->ns[index], k = lists->ks[index];
    const uint64_t answer = reference_round(n, k), total = reference_round_total(n, k);
    const uint64_t count = number_in(lists->counts, index);
    if (answer != DONE)
        return answer;
    if (number_in(lists->ranks, index) >= total)
        return refused(8, 0);
    return count == 0 || count > total ? refused(15, 0) : DONE;
}

/* 14, and what is wrong with a stretch. */
static uint64_t check_stretches(const struct lists *lists)
{
    if (lists->number == 0 || lists->number > MOST_ENTRIES)
        return refused(14, 0);
    for (size_t i = 0; i < lists->number; i++) {
        const uint64_t answer = check_stretch(lists, i);
        if (answer != DONE)
            return with_place(answer, i + 1);
    }
    return DONE;
}

static size_t length_of(const struct lists *lists)
{
    size_t length = HEAD + lists->number * ENTRY;
    for (size_t i = 0; i < lists->number; i++)
        length += lists->ns[i];
    return length;
}

static void put_least_first(uint8_t *bytes, size_t length, uint64_t number)
{
    for (size_t i = 0; i < length; i++)
        bytes[i] = (uint8_t)(number >> 8 * i);
}

/* An entry, and the body at its offset. */
static void put_stretch(uint8_t *book, const struct lists *lists, size_t index, size_t offset)
{
    const size_t n = lists->ns[index], k = lists->ks[index];
    uint8_t *const entry = book + HEAD + index * ENTRY;
    struct arrangement at;
    reference_unrank(n, k, number_in(lists->ranks, index), at.modules, n, at.settings, n);
    entry[0] = (uint8_t)n;
    entry[1] = (uint8_t)k;
    put_least_first(entry + OFFSET_AT, 4, offset);
    put_least_first(entry + COUNT_AT, 8, number_in(lists->counts, index));
    for (size_t i = 0; i < n; i++)
        book[offset + i] = (uint8_t)(at.settings[i] * 32 + at.modules[i]);
}

static void put_book(uint8_t *book, const struct lists *lists)
{
    size_t offset = HEAD + lists->number * ENTRY;
    book[0] = 1;
    book[1] = (uint8_t)lists->number;
    for (size_t i = 0; i < lists->number; i++) {
        put_stretch(book, lists, i, offset);
        offset += lists->ns[i];
    }
}

uint64_t reference_book_write(const uint8_t *ns, size_t ns_length, const uint8_t *ks, size_t ks_length,
                              const uint8_t *ranks, size_t ranks_length, const uint8_t *counts,
                              size_t counts_length, uint8_t *book, size_t book_length)
{
    const struct lists lists = {ns_length, ns, ks, ranks, counts};
    if (ks_length != ns_length || ranks_length != 8 * ns_length || counts_length != 8 * ns_length)
        return refused(4, 0);
    const uint64_t answer = check_stretches(&lists);
    if (answer != DONE)
        return answer;
    if (book_length < length_of(&lists))
        return refused(4, 0);
    put_book(book, &lists);
    return answered(length_of(&lists));
}
