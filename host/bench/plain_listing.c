/*
 * The listing in plain C, to be timed: it goes on by the flips of an unchecked board, counts the rank up and
 * prints with printf. It is asked only what the listing takes, and checks nothing.
 */
#include "reference.h"
#include "reference_board.h"

#include <inttypes.h>
#include <stdio.h>

enum { MOST_SLOTS = 20 };

static void print_arrangement(uint64_t rank, size_t flip, size_t n, const uint8_t *modules,
                              const uint8_t *settings)
{
    printf("%" PRIu64 " %zu", rank, flip);
    for (size_t i = 0; i < n; i++)
        printf(" %u:%u", modules[i], settings[i]);
    printf("\n");
}

static void list(size_t n, size_t k, uint64_t rank, uint64_t t)
{
    uint8_t modules[MOST_SLOTS], settings[MOST_SLOTS], counters[MOST_SLOTS], pointers[MOST_SLOTS + 1];
    const uint64_t total = reference_round_total(n, k);
    reference_unrank(n, k, rank, modules, n, settings, n);
    reference_board_write(n, k, rank, counters, n, pointers, n + 1);
    printf("walk %zu %zu %" PRIu64 " %" PRIu64 "\n", n, k, rank, t);
    for (; t > 0; t--, rank = rank == total - 1 ? 0 : rank + 1) {
        const size_t flip = unchecked_board_step(n, k, counters, n, pointers, n + 1) >> 16 & 0xff;
        print_arrangement(rank, flip, n, modules, settings);
        unchecked_flip(n, k, flip, modules, n, settings, n);
    }
    printf("next %" PRIu64 "\n", rank);
}

int main(void)
{
    uint64_t rank, t;
    size_t n, k;
    if (scanf("%zu %zu %" SCNu64 " %" SCNu64, &n, &k, &rank, &t) != 4)
        return 1;
    list(n, k, rank, t);
    return 0;
}
