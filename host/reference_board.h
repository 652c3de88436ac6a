/*
 * The reference of the counter board: plain C written from 01-scope.md, section "The counter board", alone.
 * Each function takes and answers what limpet.h says of the call of the same name.
 */
#ifndef REFERENCE_BOARD_H
#define REFERENCE_BOARD_H

#include <stddef.h>
#include <stdint.h>

/* The first digit that counts, which 01 calls s. */
size_t first_digit(size_t k);

/* Writes the board of the digits, the first of which is d_1, into n counters and n+1 pointers. */
void write_board_of_digits(size_t n, size_t k, const unsigned *digits, uint8_t *counters, uint8_t *pointers);

uint64_t reference_board_write(size_t n, size_t k, uint64_t rank, uint8_t *counters, size_t counters_length,
                               uint8_t *pointers, size_t pointers_length);
uint64_t reference_board_step(size_t n, size_t k, uint8_t *counters, size_t counters_length,
                              uint8_t *pointers, size_t pointers_length);
uint64_t reference_board_read(size_t n, size_t k, const uint8_t *counters, size_t counters_length,
                              const uint8_t *pointers, size_t pointers_length);
uint64_t reference_board_read_rank(size_t n, size_t k, const uint8_t *counters, size_t counters_length,
                                   const uint8_t *pointers, size_t pointers_length);

/*
 * The same without a check, to be timed: only a rank's board may be lent. The step is a turn of the loop of
 * FLIPSEQ, Algorithm 2 of 000.
 */
uint64_t unchecked_board_step(size_t n, size_t k, uint8_t *counters, size_t counters_length,
                              uint8_t *pointers, size_t pointers_length);
uint64_t unchecked_board_read_rank(size_t n, size_t k, const uint8_t *counters, size_t counters_length,
                                   const uint8_t *pointers, size_t pointers_length);

#endif
