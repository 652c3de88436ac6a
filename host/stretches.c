/* Stretches and pairs to ask with: see stretches.h. */
#include "stretches.h"

#include "arrangements.h"
#include "limpet.h"
#include "reference.h"

struct asked stretch_of(size_t n, size_t k, uint64_t rank, uint64_t count)
{
    struct asked at = random_arrangement(n, k);
    const uint8_t *modules = at.lent[MODULES].bytes, *settings = at.lent[SETTINGS].bytes;
    const size_t slot = n == 1 ? 0 : draw(1 + draw(n - 1)), next = n == 1 ? 0 : slot + 1;
    reference_unrank(n, k, rank, at.lent[MODULES].bytes, n, at.lent[SETTINGS].bytes, n);
    return (struct asked){.n = n,
                          .k = k,
                          .argument = rank,
                          .count = count,
                          .pair = {modules[slot], settings[slot], modules[next], settings[next]}};
}

struct asked random_stretch(size_t n, size_t k)
{
    return stretch_of(n, k, random_rank(n, k).argument, draw(SHORT));
}

struct asked longest_stretch(size_t n, size_t k)
{
    return stretch_of(n, k, random_rank(n, k).argument, LIMPET_MOST_COUNTED);
}

size_t pairs_of(size_t n, size_t k)
{
    return n * (n - 1) * k * k;
}

struct pair pair_of_number(size_t number, size_t n, size_t k)
{
    const size_t v = number % n, ahead = number / n % (n - 1), both = number / (n * (n - 1));
    return (struct pair){v + 1, both % k, (v + 1 + ahead) % n + 1, both / k};
}

uint64_t count_beyond(size_t which, uint64_t good)
{
    const uint64_t most = LIMPET_MOST_COUNTED, word = (uint64_t)1 << 32, top = (uint64_t)1 << 63;
    const uint64_t all[COUNTS_BEYOND] = {most + 1,    2 * most,   2 * most | good, word,
                                         word | good, top | good, UINT64_MAX};
    return all[which];
}

/* As `beyond`, but that 0 is a setting. */
static size_t setting_beyond(size_t which, size_t good, size_t k)
{
    return which == 0 ? k : beyond(which, good, k - 1);
}

struct pair bad_pair(size_t which, struct pair good, size_t n, size_t k)
{
    struct pair bad = good;
    switch (which / BEYOND) {
    case 0: bad.v = beyond(which % BEYOND, good.v, n); break;
    case 1: bad.w = beyond(which % BEYOND, good.w, n); break;
    case 2: bad.c = setting_beyond(which % BEYOND, good.c, k); break;
    case 3: bad.e = setting_beyond(which % BEYOND, good.e, k); break;
    default: bad.w = good.v; break;
    }
    return bad;
}
