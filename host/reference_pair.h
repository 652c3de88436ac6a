/*
 * The reference of the pair count: plain C written from 01-scope.md, section "Stretches, listing, pair
 * count", alone. It writes each arrangement of the stretch from its rank, and looks at every slot.
 */
#ifndef REFERENCE_PAIR_H
#define REFERENCE_PAIR_H

#include <stddef.h>
#include <stdint.h>

uint64_t reference_pair_count(size_t n, size_t k, uint64_t rank, uint64_t t, size_t v, size_t c, size_t w,
                              size_t e);

/*
 * The same answer, to be timed: the stretch is checked once, and then goes from arrangement to arrangement by
 * the flips of an unchecked board.
 */
uint64_t stepped_pair_count(size_t n, size_t k, uint64_t rank, uint64_t t, size_t v, size_t c, size_t w,
                            size_t e);

#endif
