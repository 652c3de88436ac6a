/*
 * The reference of the listing: plain C written from 01-scope.md, section "Stretches, listing, pair count",
 * alone. Each arrangement is worked out from its rank, and the flip out of it from the digits.
 */
#ifndef REFERENCE_LISTING_H
#define REFERENCE_LISTING_H

#include <stdbool.h>
#include <stddef.h>
#include <stdint.h>

/* Whether the bytes from `at` on begin with a line as 01 has it; `at` is then left behind it. */
bool reference_line(const char **at, const char *end, uint64_t numbers[4]);

/* Writes what the program prints for an input, any bytes, and answers its length. */
enum { LISTING_MOST = 1 << 24 };
size_t reference_listing(const char *input, size_t length, char out[LISTING_MOST]);

#endif
