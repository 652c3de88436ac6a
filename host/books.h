/* Books to ask with. */
#ifndef BOOKS_H
#define BOOKS_H

#include "limpet.h"
#include "test.h"

/* What an entry is made from. */
struct stretch {
    size_t n, k;
    uint64_t rank, count;
};

/* A book, and what it is made from. A spoilt book may be up to SPARE bytes longer than a good one. */
enum { SPARE = 300 };
struct book {
    size_t entries;
    struct stretch stretches[LIMPET_MOST_ENTRIES];
    size_t length;
    uint8_t bytes[LIMPET_MOST_BOOK + SPARE];
};

/* Where an entry, and where its body, begins in a good book. */
size_t entry_at(size_t entry);
size_t body_at(const struct book *book, size_t entry);

/* Puts a number into as many bytes, the least first; and the number that stands there. */
void put_number(uint8_t *bytes, size_t length, uint64_t number);
uint64_t get_number(const uint8_t *bytes, size_t length);

/*
 * Written by hand: from 2:0 1:1 three of n = 2, k = 2, from 2:2 1:2 all of n = 2, k = 3, and 1:0; and a count
 * above 2^32 with every byte different, n = 20, k = 1, from home.
 */
extern const struct book worked_book, worked_count;

/* Writes the bytes of the book of its stretches. Random bytes stand behind its end. */
void write_book(struct book *book);

/* A random rank and a random count of a size, any numbers where no T limits them. */
struct stretch stretch_of_size(size_t n, size_t k);

/* A book of as many stretches of random permitted sizes. */
struct book book_of(size_t entries);

/* What is asked to read an entry: the book, and rows of its n, with bytes to be written over. */
struct asked asked_for(const struct book *book, size_t entry);

/*
 * Asks for an entry of this size: in a random book of 1 to 64 entries, most often few, in a book of one, and
 * in a book of 64 of the same size. The next book is written over it.
 */
struct asked random_book(size_t n, size_t k);
struct asked book_of_one(size_t n, size_t k);
struct asked book_of_most(size_t n, size_t k);

/* The offsets and the counts that may stand for a good one, and are refused. */
enum { BAD_OFFSETS = 10, BAD_COUNTS = 8 };
uint64_t bad_offset(size_t which, uint64_t good);
uint64_t bad_count(size_t which, uint64_t good, uint64_t total);

/* A byte that is 0 or above `most`, up to `end`; and an n and a k, both permitted, whose T is too large. */
uint8_t byte_beyond(size_t most, size_t end);
void enlarge(uint8_t sizes[2]);

/* What can be wrong with a reading, in the order of 01: the places of a call's `refusals`. */
enum fault {
    UNDER_TWO_BYTES,
    BAD_HEAD,
    CONTENTS_CUT,
    BAD_N,
    BAD_K,
    TOO_LARGE,
    BAD_ENTRY,
    BAD_END,
    BAD_MODULE,
    MODULE_TWICE,
    BAD_SETTING,
    NO_ENTRY,
    BAD_LENGTH,
    FAULTS
};

/* Whether a fault is one of the contents of an entry, or of its body; its place is then the entry. */
bool is_of_contents(enum fault fault);
bool is_of_body(enum fault fault);

/*
 * Gives a book a fault, those of an entry at the one named. MODULE_TWICE needs two slots there, and
 * BAD_SETTING a k below 8. Of several faults those that are tried later are made first. NO_ENTRY and
 * BAD_LENGTH are no faults of a book, and are given to what is asked.
 */
void spoil_book(struct book *book, enum fault fault, size_t entry);
void spoil_asked(struct asked *asked, enum fault fault, size_t entries);

/* Makes each of the faults or leaves it out, at random, in what random_book answered last. */
void spoil_random_book(const struct call *call, struct asked *asked);

#endif
