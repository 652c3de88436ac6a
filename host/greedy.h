/*
 * The round in order without a rank: the greedy min-flip construction of document 000, section 3.1. From
 * home on, always the shortest flip is made that leads to an arrangement not yet visited.
 */
#ifndef GREEDY_H
#define GREEDY_H

#include "test.h"

/* Hands each arrangement of the round to `meet`, with the number of flips that led to it as argument. */
void greedy_round(const struct call *call, size_t n, size_t k,
                  void (*meet)(const struct call *call, const struct asked *met));

#endif
