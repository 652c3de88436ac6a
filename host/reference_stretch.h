/*
 * The reference of what a listing and a pair count check of their stretch: plain C written from 01-scope.md,
 * sections "Stretches, listing, pair count" and "Numbers of refusal", alone.
 */
#ifndef REFERENCE_STRETCH_H
#define REFERENCE_STRETCH_H

#include <stddef.h>
#include <stdint.h>

/* 1, 2, 3, 8 and 11, as an answer; or 0. */
uint64_t reference_stretch(size_t n, size_t k, uint64_t rank, uint64_t t);

#endif
