/* The reference of the check of a stretch: see reference_stretch.h. */
#include "reference_stretch.h"

#include "reference.h"

enum { DONE = 0, MOST_COUNTED = 65536 };

uint64_t reference_stretch(size_t n, size_t k, uint64_t rank, uint64_t t)
{
    const uint64_t answer = reference_round(n, k);
    if (answer != DONE)
        return answer;
    if (rank >= reference_round_total(n, k))
        return refused(8, 0);
    return t > MOST_COUNTED ? refused(11, 0) : DONE;
}
