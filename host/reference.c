/* The reference: see reference.h. */
#include "reference.h"

#include <stdbool.h>
#include <string.h>

enum { DONE = 0, MOST_SLOTS = 20, MOST_SETTINGS = 8 };

/* T by the number of slots, 0 to n. */
typedef uint64_t totals_by_slots[MOST_SLOTS + 1];

uint64_t refused(uint64_t number, uint64_t place)
{
    return number | place << 8;
}

uint64_t answered(uint64_t value)
{
    return value << 16;
}

/* Works T out as the product of k * i over i = 1..n; false where it is above 2^64 - 1. */
static bool totals_fit(size_t n, size_t k, totals_by_slots totals)
{
    totals[0] = 1;
    for (size_t i = 1; i <= n; i++)
        if (__builtin_mul_overflow(totals[i - 1], k * i, &totals[i]))
            return false;
    return true;
}

/* 1, 2 and 3; the totals are worked out on the way. */
static uint64_t check_sizes(size_t n, size_t k, totals_by_slots totals)
{
    if (n == 0 || n > MOST_SLOTS)
        return refused(1, 0);
    if (k == 0 || k > MOST_SETTINGS)
        return refused(2, 0);
    return totals_fit(n, k, totals) ? DONE : refused(3, 0);
}

uint64_t reference_round(size_t n, size_t k)
{
    totals_by_slots totals;
    return check_sizes(n, k, totals);
}

uint64_t reference_round_total(size_t n, size_t k)
{
    totals_by_slots totals;
    return check_sizes(n, k, totals) == DONE ? totals[n] : 0;
}

/* The lowest slot whose byte is outside low..high, or 0. */
static size_t slot_outside(size_t n, const uint8_t *bytes, size_t low, size_t high)
{
    for (size_t slot = 1; slot <= n; slot++)
        if (bytes[slot - 1] < low || bytes[slot - 1] > high)
            return slot;
    return 0;
}

/* The lowest slot whose module, one of 1..n, already stands in a lower slot, or 0. */
static size_t slot_of_repeat(size_t n, const uint8_t *modules)
{
    bool stands[MOST_SLOTS + 1] = {false};
    for (size_t slot = 1; slot <= n; slot++) {
        if (stands[modules[slot - 1]])
            return slot;
        stands[modules[slot - 1]] = true;
    }
    return 0;
}

/* 5, 6 and 7, of buffers of n bytes. */
static uint64_t check_slots(size_t n, size_t k, const uint8_t *modules, const uint8_t *settings)
{
    size_t slot;
    if ((slot = slot_outside(n, modules, 1, n)) != 0)
        return refused(5, slot);
    if ((slot = slot_of_repeat(n, modules)) != 0)
        return refused(6, slot);
    if ((slot = slot_outside(n, settings, 0, k - 1)) != 0)
        return refused(7, slot);
    return DONE;
}

/* 1 to 4; the totals are worked out on the way. */
static uint64_t check_lengths(size_t n, size_t k, size_t modules_length, size_t settings_length,
                              totals_by_slots totals)
{
    const uint64_t answer = check_sizes(n, k, totals);
    if (answer != DONE)
        return answer;
    return modules_length == n && settings_length == n ? DONE : refused(4, 0);
}

/* 1 to 7; the totals are worked out on the way. */
static uint64_t check_all(size_t n, size_t k, const uint8_t *modules, size_t modules_length,
                          const uint8_t *settings, size_t settings_length, totals_by_slots totals)
{
    const uint64_t answer = check_lengths(n, k, modules_length, settings_length, totals);
    return answer != DONE ? answer : check_slots(n, k, modules, settings);
}

uint64_t reference_check(size_t n, size_t k, const uint8_t *modules, size_t modules_length,
                         const uint8_t *settings, size_t settings_length)
{
    totals_by_slots totals;
    return check_all(n, k, modules, modules_length, settings, settings_length, totals);
}

static void flip(size_t k, size_t j, uint8_t *modules, uint8_t *settings)
{
    uint8_t old_modules[MOST_SLOTS], old_settings[MOST_SLOTS];
    memcpy(old_modules, modules, j);
    memcpy(old_settings, settings, j);
    for (size_t i = 0; i < j; i++) {
        modules[i] = old_modules[j - 1 - i];
        settings[i] = (uint8_t)((old_settings[j - 1 - i] + 1u) % k);
    }
}

uint64_t reference_flip(size_t n, size_t k, size_t j, uint8_t *modules, size_t modules_length,
                        uint8_t *settings, size_t settings_length)
{
    const uint64_t answer = reference_check(n, k, modules, modules_length, settings, settings_length);
    if (answer != DONE)
        return answer;
    if (j == 0 || j > n)
        return refused(9, 0);
    flip(k, j, modules, settings);
    return DONE;
}

/* Lemma 6 of 000, less 1. In v and c the slots before the last are renamed, again and again. */
static uint64_t rank_of(size_t n, size_t k, const uint8_t *modules, const uint8_t *settings,
                        const totals_by_slots totals)
{
    uint8_t v[MOST_SLOTS], c[MOST_SLOTS];
    const unsigned colours = (unsigned)k;
    uint64_t rank = 0;
    memcpy(v, modules, n);
    memcpy(c, settings, n);
    for (unsigned t = (unsigned)n; t > 1; t--) {
        const unsigned last_v = v[t - 1], last_c = c[t - 1];
        rank += (t * (last_c + 1) - last_v) * totals[t - 1];
        for (unsigned i = 0; i < t - 1; i++) {
            c[i] = (uint8_t)((c[i] + colours - last_c - (v[i] < last_v ? 0 : 1)) % colours);
            v[i] = (uint8_t)((v[i] + t - last_v) % t);
        }
    }
    return rank + c[0];
}

/* UNRANK of 000, section 4.2, of rank + 1: down to each last slot, then up to undo each renaming. */
static void unrank(size_t n, size_t k, uint64_t rank, uint8_t *modules, uint8_t *settings,
                   const totals_by_slots totals)
{
    const unsigned slots = (unsigned)n, colours = (unsigned)k;
    for (unsigned t = slots; t >= 1; t--) {
        const unsigned x = (unsigned)(rank / totals[t - 1]);
        rank -= x * totals[t - 1];
        modules[t - 1] = (uint8_t)(t - x % t);
        settings[t - 1] = (uint8_t)(x / t);
    }
    for (unsigned t = 2; t <= slots; t++) {
        const unsigned last_v = modules[t - 1], last_c = settings[t - 1];
        for (unsigned j = 0; j < t - 1; j++) {
            modules[j] = (uint8_t)(1 + (modules[j] + last_v - 1) % t);
            settings[j] = (uint8_t)((settings[j] + last_c + (modules[j] < last_v ? 0 : 1)) % colours);
        }
    }
}

uint64_t reference_rank(size_t n, size_t k, const uint8_t *modules, size_t modules_length,
                        const uint8_t *settings, size_t settings_length)
{
    return reference_check(n, k, modules, modules_length, settings, settings_length);
}

uint64_t reference_rank_value(size_t n, size_t k, const uint8_t *modules, size_t modules_length,
                              const uint8_t *settings, size_t settings_length)
{
    totals_by_slots totals;
    if (check_all(n, k, modules, modules_length, settings, settings_length, totals) != DONE)
        return 0;
    return rank_of(n, k, modules, settings, totals);
}

uint64_t reference_unrank(size_t n, size_t k, uint64_t rank, uint8_t *modules, size_t modules_length,
                          uint8_t *settings, size_t settings_length)
{
    totals_by_slots totals;
    const uint64_t answer = check_lengths(n, k, modules_length, settings_length, totals);
    if (answer != DONE)
        return answer;
    if (rank >= totals[n])
        return refused(8, 0);
    unrank(n, k, rank, modules, settings, totals);
    return DONE;
}

/* SUCCESSOR, Algorithm 1 of 000; there v and c begin at 1. */
static size_t successor(size_t n, size_t k, const uint8_t *v, const uint8_t *c)
{
    unsigned rises = 0;
    for (size_t j = 1; j < n; j++) {
        const bool rise = v[j - 1] < v[j];
        rises += rise;
        if (rises == 2 || (rises == 1 && v[j] < v[0]))
            return j;
        if (k > 1 && rise && (c[j] + k - c[j - 1]) % k != 1)
            return j;
        if (k > 1 && !rise && c[j - 1] != c[j])
            return j;
    }
    return n;
}

uint64_t reference_look(size_t n, size_t k, const uint8_t *modules, size_t modules_length,
                        const uint8_t *settings, size_t settings_length)
{
    const uint64_t answer = reference_check(n, k, modules, modules_length, settings, settings_length);
    return answer != DONE ? answer : answered(successor(n, k, modules, settings));
}

uint64_t reference_next(size_t n, size_t k, uint8_t *modules, size_t modules_length, uint8_t *settings,
                        size_t settings_length)
{
    const uint64_t answer = reference_check(n, k, modules, modules_length, settings, settings_length);
    if (answer != DONE)
        return answer;
    return unchecked_next(n, k, modules, modules_length, settings, settings_length);
}

uint64_t unchecked_flip(size_t n, size_t k, size_t j, uint8_t *modules, size_t modules_length,
                        uint8_t *settings, size_t settings_length)
{
    (void)n;
    (void)modules_length;
    (void)settings_length;
    flip(k, j, modules, settings);
    return DONE;
}

uint64_t unchecked_rank_value(size_t n, size_t k, const uint8_t *modules, size_t modules_length,
                              const uint8_t *settings, size_t settings_length)
{
    totals_by_slots totals;
    (void)modules_length;
    (void)settings_length;
    totals_fit(n, k, totals);
    return rank_of(n, k, modules, settings, totals);
}

uint64_t unchecked_unrank(size_t n, size_t k, uint64_t rank, uint8_t *modules, size_t modules_length,
                          uint8_t *settings, size_t settings_length)
{
    totals_by_slots totals;
    (void)modules_length;
    (void)settings_length;
    totals_fit(n, k, totals);
    unrank(n, k, rank, modules, settings, totals);
    return DONE;
}

uint64_t unchecked_next(size_t n, size_t k, uint8_t *modules, size_t modules_length, uint8_t *settings,
                        size_t settings_length)
{
    const size_t j = successor(n, k, modules, settings);
    (void)modules_length;
    (void)settings_length;
    flip(k, j, modules, settings);
    return answered(j);
}
