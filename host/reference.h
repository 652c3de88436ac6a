/*
 * The reference: plain C written from 01-scope.md and, for looking and ranks, from document 000, sections
 * 3.3 and 4, alone. It shares nothing with the library. Each function takes and answers what limpet.h says
 * of the call of the same name.
 */
#ifndef REFERENCE_H
#define REFERENCE_H

#include <stddef.h>
#include <stdint.h>

/* The answer with this number and place, and value 0; and that of a call that is done, with this value. */
uint64_t refused(uint64_t number, uint64_t place);
uint64_t answered(uint64_t value);

uint64_t reference_round(size_t n, size_t k);
uint64_t reference_round_total(size_t n, size_t k);
uint64_t reference_check(size_t n, size_t k, const uint8_t *modules, size_t modules_length,
                         const uint8_t *settings, size_t settings_length);
uint64_t reference_flip(size_t n, size_t k, size_t j, uint8_t *modules, size_t modules_length,
                        uint8_t *settings, size_t settings_length);
uint64_t reference_rank(size_t n, size_t k, const uint8_t *modules, size_t modules_length,
                        const uint8_t *settings, size_t settings_length);
uint64_t reference_rank_value(size_t n, size_t k, const uint8_t *modules, size_t modules_length,
                              const uint8_t *settings, size_t settings_length);
uint64_t reference_unrank(size_t n, size_t k, uint64_t rank, uint8_t *modules, size_t modules_length,
                          uint8_t *settings, size_t settings_length);
uint64_t reference_look(size_t n, size_t k, const uint8_t *modules, size_t modules_length,
                        const uint8_t *settings, size_t settings_length);
uint64_t reference_next(size_t n, size_t k, uint8_t *modules, size_t modules_length, uint8_t *settings,
                        size_t settings_length);

/* The same without a check, to be timed: what the call takes is all that may be passed. */
uint64_t unchecked_flip(size_t n, size_t k, size_t j, uint8_t *modules, size_t modules_length,
                        uint8_t *settings, size_t settings_length);
uint64_t unchecked_rank_value(size_t n, size_t k, const uint8_t *modules, size_t modules_length,
                              const uint8_t *settings, size_t settings_length);
uint64_t unchecked_unrank(size_t n, size_t k, uint64_t rank, uint8_t *modules, size_t modules_length,
                          uint8_t *settings, size_t settings_length);
uint64_t unchecked_next(size_t n, size_t k, uint8_t *modules, size_t modules_length, uint8_t *settings,
                        size_t settings_length);

#endif
