/* Arrangements and ranks to ask with: see arrangements.h. */
#include "arrangements.h"

#include "reference.h"

#include <stdio.h>
#include <string.h>

const char *const round_of_two[TOTAL_OF_TWO] = {"1:0 2:0", "1:1 2:0", "2:1 1:0", "2:0 1:0",
                                                "1:1 2:1", "1:0 2:1", "2:0 1:1", "2:1 1:1"};

/* Rows of n bytes, with random bytes in them and behind. */
static struct asked with_random_rows(size_t n, size_t k, uint64_t argument)
{
    struct asked asked = {.n = n, .k = k, .argument = argument};
    asked.lent[MODULES].length = asked.lent[SETTINGS].length = n;
    scribble(&asked);
    return asked;
}

struct asked written(size_t k, const char *slots)
{
    struct asked asked = {.k = k, .argument = 1};
    uint8_t *module = asked.lent[MODULES].bytes, *setting = asked.lent[SETTINGS].bytes;
    int read = 0;
    for (; sscanf(slots, "%hhu:%hhu%n", module, setting, &read) == 2; module++, setting++, slots += read)
        asked.n++;
    asked.lent[MODULES].length = asked.lent[SETTINGS].length = asked.n;
    return asked;
}

struct asked home(size_t n, size_t k)
{
    struct asked asked = with_random_rows(n, k, 0);
    for (size_t i = 0; i < n; i++) {
        asked.lent[MODULES].bytes[i] = (uint8_t)(i + 1);
        asked.lent[SETTINGS].bytes[i] = 0;
    }
    return asked;
}

struct asked last(size_t n, size_t k)
{
    struct asked asked = with_random_rows(n, k, reference_round_total(n, k) - 1);
    for (size_t i = 0; i < n; i++) {
        asked.lent[MODULES].bytes[i] = (uint8_t)(n - i);
        asked.lent[SETTINGS].bytes[i] = (uint8_t)(k - 1);
    }
    return asked;
}

struct asked random_arrangement(size_t n, size_t k)
{
    struct asked asked = with_random_rows(n, k, 1 + draw(n));
    uint8_t *modules = asked.lent[MODULES].bytes;
    for (size_t i = 0; i < n; i++) {
        const size_t from = draw(i + 1);
        modules[i] = modules[from];
        modules[from] = (uint8_t)(i + 1);
        asked.lent[SETTINGS].bytes[i] = (uint8_t)draw(k);
    }
    return asked;
}

struct asked random_rank(size_t n, size_t k)
{
    const uint64_t total = reference_round_total(n, k);
    return with_random_rows(n, k, draw(total == 0 ? UINT64_MAX : total));
}

struct asked rank_with_full_digits(size_t n, size_t k, size_t full)
{
    const uint64_t weight = reference_round_total(full, k);
    struct asked asked = random_rank(n, k);
    asked.argument = (asked.argument / weight + 1) * weight - 1;
    return asked;
}

size_t flip_out_of(size_t n, size_t k, uint64_t rank)
{
    for (size_t j = 1; j <= n; rank /= k * j, j++)
        if (rank % (k * j) != k * j - 1)
            return j;
    return n;
}

void make_flip(struct asked *asked, size_t j)
{
    const size_t n = asked->n;
    reference_flip(n, asked->k, j, asked->lent[MODULES].bytes, n, asked->lent[SETTINGS].bytes, n);
}

void scribble_bytes(uint8_t *bytes, size_t length)
{
    uint64_t word;
    for (; length >= sizeof word; bytes += sizeof word, length -= sizeof word) {
        word = draw_word();
        memcpy(bytes, &word, sizeof word);
    }
    word = draw_word();
    memcpy(bytes, &word, length);
}

void scribble(struct asked *asked)
{
    for (struct row *row = asked->lent; row < asked->lent + ROWS; row++)
        scribble_bytes(row->bytes, ROW_MOST);
}
