/* The reference of the listing: see reference_listing.h. */
#include "reference_listing.h"

#include "arrangements.h"
#include "reference.h"
#include "reference_stretch.h"

#include <inttypes.h>
#include <stdio.h>

enum { N, K, RANK, COUNT, NUMBERS, MOST_SLOTS = 20 };

/* A number as 01 has it; `at` is left at the first byte that is no digit. */
static bool take_number(const char **at, const char *end, uint64_t *number)
{
    const char *const first = *at;
    *number = 0;
    for (; *at < end && **at >= '0' && **at <= '9'; ++*at) {
        const uint64_t digit = (uint64_t)(**at - '0');
        if (__builtin_mul_overflow(*number, 10, number) || __builtin_add_overflow(*number, digit, number))
            return false;
    }
    return *at > first && (*first != '0' || *at == first + 1);
}

bool reference_line(const char **at, const char *end, uint64_t numbers[NUMBERS])
{
    for (int i = 0; i < NUMBERS; i++)
        if (!take_number(at, end, &numbers[i]) || *at == end || *(*at)++ != (i == COUNT ? '\n' : ' '))
            return false;
    return true;
}

static char *put_arrangement(char *at, size_t n, size_t k, uint64_t rank)
{
    uint8_t modules[MOST_SLOTS], settings[MOST_SLOTS];
    reference_unrank(n, k, rank, modules, n, settings, n);
    at += sprintf(at, "%" PRIu64 " %zu", rank, flip_out_of(n, k, rank));
    for (size_t i = 0; i < n; i++)
        at += sprintf(at, " %u:%u", modules[i], settings[i]);
    return at + sprintf(at, "\n");
}

static char *put_listing(char *at, const uint64_t numbers[NUMBERS])
{
    const uint64_t total = reference_round_total(numbers[N], numbers[K]);
    uint64_t rank = numbers[RANK];
    at += sprintf(at, "walk %" PRIu64 " %" PRIu64 " %" PRIu64 " %" PRIu64 "\n", numbers[N], numbers[K],
                  numbers[RANK], numbers[COUNT]);
    for (uint64_t i = 0; i < numbers[COUNT]; i++, rank = rank == total - 1 ? 0 : rank + 1)
        at = put_arrangement(at, numbers[N], numbers[K], rank);
    return at + sprintf(at, "next %" PRIu64 "\n", rank);
}

size_t reference_listing(const char *input, size_t length, char out[LISTING_MOST])
{
    uint64_t numbers[NUMBERS];
    uint64_t answer = refused(17, 0);
    const char *at = input;
    if (reference_line(&at, input + length, numbers) && at == input + length)
        answer = reference_stretch(numbers[N], numbers[K], numbers[RANK], numbers[COUNT]);
    if (answer != 0)
        return (size_t)sprintf(out, "refused %" PRIu64 "\n", answer & 0xff);
    return (size_t)(put_listing(out, numbers) - out);
}
