/* The listing program as the tests run it, and listings that a test itself writes. */
#ifndef LISTINGS_H
#define LISTINGS_H

#include "test.h"

/* A round of at most SMALL arrangements is listed whole. */
enum { SMALL = 2000, LINE_MOST = 200 };

/* Holds a run to the reference, and where `known` isn't NULL also to what the test itself knows. */
void expect_listing(struct text input, const char *known);

/* The same, with the input `piece` bytes at a time, as in feed(). */
void expect_in_pieces(struct text input, size_t piece, const char *known);

/* The input line of four numbers; the next one is written over it. */
struct text line_of(uint64_t n, uint64_t k, uint64_t rank, uint64_t t);

/* A listing from rank 0 on that the test itself writes, arrangement by arrangement, up to a round. */
struct listing {
    size_t n, k;
    uint64_t count;
    char text[SMALL * LINE_MOST], *end;
};

void begin_listing(struct listing *listing, size_t n, size_t k, uint64_t count);

/* The next arrangement, with its rank as argument, and the flip out of it. */
void put_arrangement(struct listing *listing, const struct asked *at, size_t flip);

/* Ends the listing and holds the program to it. */
void expect_written_listing(struct listing *listing);

#endif
