/* The reference of the pair count: see reference_pair.h. */
#include "reference_pair.h"

#include "reference.h"
#include "reference_board.h"
#include "reference_stretch.h"

#include <stdbool.h>

enum { DONE = 0, MOST_SLOTS = 20 };

static bool is_bad_pair(size_t n, size_t k, size_t v, size_t c, size_t w, size_t e)
{
    return v < 1 || v > n || w < 1 || w > n || v == w || c >= k || e >= k;
}

/* Whether v:c stands in some slot and w:e in the next. */
static bool stands(size_t n, const uint8_t *modules, const uint8_t *settings, size_t v, size_t c, size_t w,
                   size_t e)
{
    for (size_t i = 0; i + 1 < n; i++)
        if (modules[i] == v && settings[i] == c && modules[i + 1] == w && settings[i + 1] == e)
            return true;
    return false;
}

/* 1, 2, 3, 8, 11 and 12. */
static uint64_t check_pair(size_t n, size_t k, uint64_t rank, uint64_t t, size_t v, size_t c, size_t w,
                           size_t e)
{
    const uint64_t answer = reference_stretch(n, k, rank, t);
    if (answer != DONE)
        return answer;
    return is_bad_pair(n, k, v, c, w, e) ? refused(12, 0) : DONE;
}

uint64_t reference_pair_count(size_t n, size_t k, uint64_t rank, uint64_t t, size_t v, size_t c, size_t w,
                              size_t e)
{
    uint8_t modules[MOST_SLOTS], settings[MOST_SLOTS];
    const uint64_t answer = check_pair(n, k, rank, t, v, c, w, e), total = reference_round_total(n, k);
    uint64_t count = 0;
    if (answer != DONE)
        return answer;
    for (; t > 0; t--, rank = rank == total - 1 ? 0 : rank + 1) {
        reference_unrank(n, k, rank, modules, n, settings, n);
        count += stands(n, modules, settings, v, c, w, e);
    }
    return answered(count);
}

uint64_t stepped_pair_count(size_t n, size_t k, uint64_t rank, uint64_t t, size_t v, size_t c, size_t w,
                            size_t e)
{
    uint8_t modules[MOST_SLOTS], settings[MOST_SLOTS], counters[MOST_SLOTS], pointers[MOST_SLOTS + 1];
    const uint64_t answer = check_pair(n, k, rank, t, v, c, w, e);
    uint64_t count = 0;
    if (answer != DONE)
        return answer;
    reference_unrank(n, k, rank, modules, n, settings, n);
    reference_board_write(n, k, rank, counters, n, pointers, n + 1);
    for (; t > 0; t--) {
        count += stands(n, modules, settings, v, c, w, e);
        const uint64_t answer_of_step = unchecked_board_step(n, k, counters, n, pointers, n + 1);
        unchecked_flip(n, k, answer_of_step >> 16 & 0xff, modules, n, settings, n);
    }
    return answered(count);
}
