/* Arrangements and ranks to ask with. */
#ifndef ARRANGEMENTS_H
#define ARRANGEMENTS_H

#include "test.h"

/* A round of at most WHOLE arrangements is tried whole. */
enum { WHOLE = 50000 };

/* From slots as 01 writes them, "1:0 2:0"; n is their number. The argument is 1. */
struct asked written(size_t k, const char *slots);

/* The round of n = 2, k = 2 by rank, as 01 writes it. */
enum { TOTAL_OF_TWO = 8 };
extern const char *const round_of_two[TOTAL_OF_TWO];

/* The first and the last arrangement of a round: home, and n:k-1 .. 1:k-1. The argument is their rank. */
struct asked home(size_t n, size_t k);
struct asked last(size_t n, size_t k);

/* A random arrangement, for any n of 1..20 and k of 1..8, with a random flip length as argument. */
struct asked random_arrangement(size_t n, size_t k);

/* A random rank as argument, any number where no T limits it, and random bytes to be written over. */
struct asked random_rank(size_t n, size_t k);

/* The same, and the lowest digits of the rank are full, as many of 1..n as named. */
struct asked rank_with_full_digits(size_t n, size_t k, size_t full);

/* 01: the length of the flip out of a rank, the smallest j whose digit isn't full, or n. */
size_t flip_out_of(size_t n, size_t k, uint64_t rank);

/* Makes the reference's flip of length j on an arrangement. */
void make_flip(struct asked *asked, size_t j);

/* Puts random bytes into as many places, and into every place of the rows. */
void scribble_bytes(uint8_t *bytes, size_t length);
void scribble(struct asked *asked);

#endif
