/*
 * Good books, as the tests have them read. Each that is met here is also written again, from what the library
 * reads of it, and has to come out byte for byte.
 */
#ifndef READINGS_H
#define READINGS_H

#include "books.h"

/* Asks any of the calls that read for an entry of a good book, knowing the stretch that it was made from. */
void expect_entry(const struct call *call, const struct book *book, size_t entry);
void expect_every_entry(const struct call *call, const struct book *book);

/* Asks any of these calls for an entry of what may be a good book. */
uint64_t ask_reading(const struct call *call, struct asked *asked);

#endif
