/* Plans: stretches to write a book from, as limpet_book_write takes them. */
#ifndef PLANS_H
#define PLANS_H

#include "books.h"

/* The four lists, with room for more stretches than a book has, and the buffer. */
enum { LISTED_MOST = 320, LIST_MOST = 8 * LISTED_MOST };
struct plan {
    size_t lengths[LISTS];
    uint8_t lists[LISTS][LIST_MOST];
    size_t room;
    uint8_t buffer[LIMPET_MOST_BOOK + SPARE];
};

/* The bytes that a list has for each stretch. */
size_t width_of(size_t list);

/*
 * The book's stretches, with the same again behind them up to LISTED_MOST, and a buffer of the book's length.
 * No byte of the buffer is that of the book. Nothing is drawn.
 */
struct plan plan_of(const struct book *book);

/* Sets the lengths of the lists to those of as many stretches. */
void take_stretches(struct plan *plan, size_t count);

/* Puts a stretch into the place of the one of this number, counted from 1. */
void put_stretch(struct plan *plan, size_t number, struct stretch stretch);

/* What is asked to have the book of the plan written, for as long as the plan stays as it is. */
struct asked asked_to_write(const struct plan *plan);

/*
 * A stretch of this size among random ones, 1 to 64 and most often few, with a buffer that may be too long;
 * one such stretch alone; and 64. The next is written over it.
 */
struct asked random_plan(size_t n, size_t k);
struct asked plan_of_one(size_t n, size_t k);
struct asked plan_of_most(size_t n, size_t k);

/* What can be wrong with a plan, in the order in which it is tried: the places of the call's `refusals`. */
enum plan_fault {
    LISTS_DIFFER,
    NONE_OR_MANY,
    LISTED_N,
    LISTED_K,
    LISTED_SIZE,
    LISTED_RANK,
    LISTED_COUNT,
    SHORT_ROOM,
    PLAN_FAULTS
};

/* Whether the fault is one of a stretch, whose number is then its place. */
bool is_of_stretch(enum plan_fault fault);

/*
 * Gives a plan a fault, those of a stretch at the one named. Of several faults those that are tried later are
 * made first.
 */
void spoil_plan(struct plan *plan, enum plan_fault fault, size_t number);

/* Makes each of the faults or leaves it out, at random, in what random_plan answered last. */
void spoil_random_plan(const struct call *call, struct asked *asked);

#endif
