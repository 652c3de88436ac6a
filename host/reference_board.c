/* The reference of the counter board: see reference_board.h. */
#include "reference_board.h"

#include "reference.h"

#include <stdbool.h>
#include <string.h>

enum { DONE = 0, MOST_SLOTS = 20, CLOSED = 1 << 8 };

size_t first_digit(size_t k)
{
    return k == 1 ? 2 : 1;
}

/* 1 to 4. */
static uint64_t check_lengths(size_t n, size_t k, size_t counters_length, size_t pointers_length)
{
    const uint64_t answer = reference_round(n, k);
    if (answer != DONE)
        return answer;
    return counters_length == n && pointers_length == n + 1 ? DONE : refused(4, 0);
}

static bool is_full(size_t k, const unsigned *digits, size_t j)
{
    return j >= first_digit(k) && digits[j - 1] == k * j - 1;
}

/* The first place after the run of full digits that begins at place j. */
static size_t end_of_run(size_t n, size_t k, const unsigned *digits, size_t j)
{
    while (j <= n && is_full(k, digits, j))
        j++;
    return j;
}

void write_board_of_digits(size_t n, size_t k, const unsigned *digits, uint8_t *counters, uint8_t *pointers)
{
    const size_t s = first_digit(k);
    for (size_t j = 1; j <= n; j++) {
        const bool begins_run = is_full(k, digits, j) && (j == s || !is_full(k, digits, j - 1));
        counters[j - 1] = (uint8_t)(is_full(k, digits, j) || j < s ? 0 : digits[j - 1]);
        pointers[j - 1] = (uint8_t)(begins_run ? end_of_run(n, k, digits, j) : j);
    }
    pointers[n] = (uint8_t)(n + 1);
}

uint64_t reference_board_write(size_t n, size_t k, uint64_t rank, uint8_t *counters, size_t counters_length,
                               uint8_t *pointers, size_t pointers_length)
{
    unsigned digits[MOST_SLOTS];
    const uint64_t answer = check_lengths(n, k, counters_length, pointers_length);
    if (answer != DONE)
        return answer;
    if (rank >= reference_round_total(n, k))
        return refused(8, 0);
    for (size_t j = 1; j <= n; rank /= k * j, j++)
        digits[j - 1] = (unsigned)(rank % (k * j));
    write_board_of_digits(n, k, digits, counters, pointers);
    return DONE;
}

/* One step from x, which is at most n; 01's c_x is counters[x - 1]. */
static uint64_t count_on(size_t n, size_t k, size_t x, uint8_t *counters, uint8_t *pointers)
{
    const size_t s = first_digit(k), full = k * x - 1, y = pointers[x];
    if (counters[x - 1] >= full)
        return refused(10, 0);
    const bool fills = counters[x - 1] + 1u == full;
    if (fills && (y < x + 1 || y > n + 1))
        return refused(10, 0);
    pointers[s - 1] = (uint8_t)s;
    counters[x - 1] = (uint8_t)(fills ? 0 : counters[x - 1] + 1);
    if (fills) {
        pointers[x - 1] = (uint8_t)y;
        pointers[x] = (uint8_t)(x + 1);
    }
    return answered(x);
}

uint64_t reference_board_step(size_t n, size_t k, uint8_t *counters, size_t counters_length,
                              uint8_t *pointers, size_t pointers_length)
{
    const uint64_t answer = check_lengths(n, k, counters_length, pointers_length);
    if (answer != DONE)
        return answer;
    const size_t s = first_digit(k), x = pointers[s - 1];
    if (x < s || x > n + 1)
        return refused(10, 0);
    if (x <= n)
        return count_on(n, k, x, counters, pointers);
    pointers[s - 1] = (uint8_t)s;
    return answered(n | CLOSED);
}

/*
 * The digits of a rank's board: full from a pointer's place up to where it points, else the counter. What is
 * taken from a false board in this way has another board, or is out of range.
 */
static void digits_of_board(size_t n, size_t k, const uint8_t *counters, const uint8_t *pointers,
                            unsigned *digits)
{
    size_t end = 0; /* the furthest place that a pointer so far points to */
    for (size_t j = 1; j <= n; j++) {
        if (j >= first_digit(k) && pointers[j - 1] > end)
            end = pointers[j - 1];
        digits[j - 1] = j < end ? (unsigned)(k * j - 1) : counters[j - 1];
    }
}

/* Whether these are digits of a rank, and their board is this one. */
static bool is_board_of(size_t n, size_t k, const unsigned *digits, const uint8_t *counters,
                        const uint8_t *pointers)
{
    uint8_t own_counters[MOST_SLOTS], own_pointers[MOST_SLOTS + 1];
    for (size_t j = 1; j <= n; j++)
        if (digits[j - 1] >= k * j)
            return false;
    write_board_of_digits(n, k, digits, own_counters, own_pointers);
    return memcmp(counters, own_counters, n) == 0 && memcmp(pointers, own_pointers, n + 1) == 0;
}

/* 1 to 4 and 10; the digits are worked out on the way. */
static uint64_t check_board(size_t n, size_t k, const uint8_t *counters, size_t counters_length,
                            const uint8_t *pointers, size_t pointers_length, unsigned *digits)
{
    const uint64_t answer = check_lengths(n, k, counters_length, pointers_length);
    if (answer != DONE)
        return answer;
    digits_of_board(n, k, counters, pointers, digits);
    return is_board_of(n, k, digits, counters, pointers) ? DONE : refused(10, 0);
}

static uint64_t rank_of_digits(size_t n, size_t k, const unsigned *digits)
{
    uint64_t rank = 0, weight = 1;
    for (size_t j = 1; j <= n; weight *= k * j, j++)
        rank += digits[j - 1] * weight;
    return rank;
}

uint64_t reference_board_read(size_t n, size_t k, const uint8_t *counters, size_t counters_length,
                              const uint8_t *pointers, size_t pointers_length)
{
    unsigned digits[MOST_SLOTS];
    return check_board(n, k, counters, counters_length, pointers, pointers_length, digits);
}

uint64_t reference_board_read_rank(size_t n, size_t k, const uint8_t *counters, size_t counters_length,
                                   const uint8_t *pointers, size_t pointers_length)
{
    unsigned digits[MOST_SLOTS];
    if (check_board(n, k, counters, counters_length, pointers, pointers_length, digits) != DONE)
        return 0;
    return rank_of_digits(n, k, digits);
}

uint64_t unchecked_board_step(size_t n, size_t k, uint8_t *counters, size_t counters_length,
                              uint8_t *pointers, size_t pointers_length)
{
    const size_t s = k == 1 ? 2 : 1, x = pointers[s - 1];
    (void)counters_length;
    (void)pointers_length;
    pointers[s - 1] = (uint8_t)s;
    if (x > n)
        return answered(n | CLOSED);
    if (++counters[x - 1] == k * x - 1) {
        counters[x - 1] = 0;
        pointers[x - 1] = pointers[x];
        pointers[x] = (uint8_t)(x + 1);
    }
    return answered(x);
}

uint64_t unchecked_board_read_rank(size_t n, size_t k, const uint8_t *counters, size_t counters_length,
                                   const uint8_t *pointers, size_t pointers_length)
{
    unsigned digits[MOST_SLOTS];
    (void)counters_length;
    (void)pointers_length;
    digits_of_board(n, k, counters, pointers, digits);
    return rank_of_digits(n, k, digits);
}
