/*
 * The round of arrangements, for C: link liblimpet.a (x86-64, SysV).
 *
 * There are n slots and n modules numbered 1 to n, each with a setting 0 to k-1. An arrangement is lent
 * as two buffers of n bytes: modules by slot, settings by slot; slot 1, the front, is the first byte. A
 * round has T = k^n * n! arrangements, and each has a rank, 0 to T-1. Rank 0 is home: module i in slot i,
 * every setting 0. One flip leads from each rank to the next, and from T-1 to home.
 *
 * A board is lent as two buffers: n counters c_1..c_n, and n + 1 pointers f_1..f_(n+1), each a byte. Each
 * rank has a board, and no two ranks have the same: it tells the digits of the rank, which is the sum of
 * d_j * k^(j-1) * (j-1)! with each d_j in 0..k*j-1. Let s be 1, or 2 where k = 1. A digit with j >= s is
 * full where it is k*j - 1. Then c_j is d_j, or 0 where d_j is full or j < s; and f_j is j, or, where a run
 * of full digits begins at j, the first place after the run.
 *
 * A stretch is a rank and a count: as many arrangements, from that rank on. A book hands stretches over, of
 * one size or several. It is lent as one buffer, contents first and then bodies:
 *
 *    byte 0       the format, 1
 *    byte 1       the number of entries E, 1 to 64
 *    then E entries of 14 bytes each:
 *      1 byte     n
 *      1 byte     k
 *      4 bytes    the offset of the entry's body, counted from byte 0; the least byte first
 *      8 bytes    the count, 1 to T; the least byte first
 *    then E bodies, in the order of the entries:
 *      n bytes    the first arrangement of the stretch, slot 1 first: setting * 32 + module
 *
 * The expected offset is 2 + 14 * E for the first entry, and for each other the one before it plus that
 * entry's n: bodies stand without gaps. The book ends with the last. Entries are counted from 1.
 *
 * The caller's duty, which no check can see: a buffer is lent as a pointer and then its length, has the
 * length passed with it, and overlaps no other buffer lent to the same call. A pointer may be NULL only
 * with length 0.
 *
 * Unless said otherwise a call answers one number that the three macros below take apart: the number of
 * its refusal (0: done), the place of the refusal, and a value. A refused call changes no buffer and has
 * value 0. The refusals of a call are tried in the order listed with it, and the first that holds is
 * answered:
 *
 *    1  n is 0 or above 20
 *    2  k is 0 or above 8
 *    3  T is above 2^64 - 1
 *    4  a lent buffer hasn't its exact length; or, as said with limpet_book_write, lists of stretches differ in
 *       length, or a buffer is shorter than the book to be written into it
 *    5  a module is outside 1..n
 *    6  a module stands twice
 *    7  a setting is k or more
 *    8  a rank is T or more
 *    9  a flip length is 0 or above n
 *   10  a board is false, as said with limpet_board_step and limpet_board_read
 *   11  a count t is above 65,536
 *   12  a pair has a module outside 1..n, the same module twice or a setting of k or more
 *   13  a book ends before its contents do
 *   14  a book's format isn't 1, or its number of entries is 0 or above 64; or no stretch is to be
 *       written, or more than 64
 *   15  an entry's offset isn't the expected one, or its count is 0 or above T
 *   16  a book's length isn't the end of its last body
 *   18  the entry asked for is 0 or above E
 *
 * The place of 5, 6 and 7 is the lowest bad slot, counted from 1; for 6 the lowest slot whose module
 * already stands in a lower slot. Each is tried over all slots before the next. In a book the place of 1, 2,
 * 3, 15, 5, 6 and 7 is the number of the entry, and in one to be written that of 1, 2, 3, 8 and 15. The place
 * of every other refusal is 0.
 */
#ifndef LIMPET_H
#define LIMPET_H

#include <stddef.h>
#include <stdint.h>

#define LIMPET_MOST_SLOTS 20
#define LIMPET_MOST_SETTINGS 8
#define LIMPET_MOST_COUNTED 65536
#define LIMPET_MOST_ENTRIES 64

/* The bytes of an entry, and of the longest book. */
#define LIMPET_ENTRY_LENGTH 14
#define LIMPET_MOST_BOOK (2 + LIMPET_MOST_ENTRIES * (LIMPET_ENTRY_LENGTH + LIMPET_MOST_SLOTS))

#define LIMPET_NUMBER(answer) ((uint64_t)(answer) & 0xff)
#define LIMPET_PLACE(answer) ((uint64_t)(answer) >> 8 & 0xff)
#define LIMPET_VALUE(answer) ((uint64_t)(answer) >> 16)

/* The two parts of the value of limpet_board_step. */
#define LIMPET_FLIP(answer) (LIMPET_VALUE(answer) & 0xff)
#define LIMPET_CLOSED(answer) (LIMPET_VALUE(answer) >> 8 & 1)

/* The two parts of the value of limpet_book_read. */
#define LIMPET_N(answer) (LIMPET_VALUE(answer) & 0xff)
#define LIMPET_K(answer) (LIMPET_VALUE(answer) >> 8 & 0xff)

#ifdef __cplusplus
extern "C" {
#endif

/* Is there a round of n slots with k settings? Value 0. Refusals 1, 2, 3. */
uint64_t limpet_round(size_t n, size_t k);

/* The plain number T, or 0 where limpet_round refuses. */
uint64_t limpet_round_total(size_t n, size_t k);

/* Is what is lent an arrangement of n slots with k settings? Value 0. Refusals 1 to 7. */
uint64_t limpet_check(size_t n, size_t k, const uint8_t *modules, size_t modules_length,
                      const uint8_t *settings, size_t settings_length);

/*
 * Makes the flip of length j on the arrangement: the first j slots are reversed, and 1 modulo k is added
 * to their settings; the slots behind stay. Value 0. Refusals 1 to 7, then 9.
 */
uint64_t limpet_flip(size_t n, size_t k, size_t j, uint8_t *modules, size_t modules_length,
                     uint8_t *settings, size_t settings_length);

/*
 * The flip out of the arrangement, found by looking at it alone: the flip of this length leads to the next
 * rank. Value: its length, 1 to n. Refusals 1 to 7.
 */
uint64_t limpet_look(size_t n, size_t k, const uint8_t *modules, size_t modules_length,
                     const uint8_t *settings, size_t settings_length);

/* Looks and makes the flip: leaves the arrangement of the next rank. Value: its length. Refusals 1 to 7. */
uint64_t limpet_next(size_t n, size_t k, uint8_t *modules, size_t modules_length, uint8_t *settings,
                     size_t settings_length);

/* Has what is lent a rank? Value 0; the rank itself comes from limpet_rank_value. Refusals 1 to 7. */
uint64_t limpet_rank(size_t n, size_t k, const uint8_t *modules, size_t modules_length,
                     const uint8_t *settings, size_t settings_length);

/* The plain number of the arrangement's rank, or 0 where limpet_rank refuses. */
uint64_t limpet_rank_value(size_t n, size_t k, const uint8_t *modules, size_t modules_length,
                           const uint8_t *settings, size_t settings_length);

/* Writes the arrangement of the rank, whatever the buffers hold. Value 0. Refusals 1 to 4, then 8. */
uint64_t limpet_unrank(size_t n, size_t k, uint64_t rank, uint8_t *modules, size_t modules_length,
                       uint8_t *settings, size_t settings_length);

/* Writes the board of the rank, whatever the buffers hold. Value 0. Refusals 1 to 4, then 8. */
uint64_t limpet_board_write(size_t n, size_t k, uint64_t rank, uint8_t *counters, size_t counters_length,
                            uint8_t *pointers, size_t pointers_length);

/*
 * One step, in a fixed few operations whatever n is: from the board of a rank it leaves the board of the
 * next. Value: LIMPET_FLIP is the length of the flip out of the rank, and LIMPET_CLOSED is 1 where the rank
 * was T-1, so that the round closed. Refusals 1 to 4, then 10, which a rank's board never meets.
 *
 * It looks at few of the bytes, and so steps many a false board. Let x be f_s.
 *    x is outside s..n+1: refused by 10.
 *    x is n+1: the flip is n, the round closed, and f_s becomes s.
 *    Else c_x of k*x - 1 or more is refused by 10. With c_x + 1 = k*x - 1, let y be f_(x+1), and y outside
 *    x+1..n+1 is refused by 10. Then f_s becomes s. A c_x + 1 below k*x - 1 is stored; otherwise c_x becomes
 *    0, then f_x becomes y, then f_(x+1) becomes x+1. The flip is x.
 */
uint64_t limpet_board_step(size_t n, size_t k, uint8_t *counters, size_t counters_length, uint8_t *pointers,
                           size_t pointers_length);

/*
 * Is what is lent the board of a rank? Looks at every byte. Value 0; the rank itself comes from
 * limpet_board_read_rank. Refusals 1 to 4, then 10 where no rank has this board.
 */
uint64_t limpet_board_read(size_t n, size_t k, const uint8_t *counters, size_t counters_length,
                           const uint8_t *pointers, size_t pointers_length);

/* The plain number of the rank whose board this is, or 0 where limpet_board_read refuses. */
uint64_t limpet_board_read_rank(size_t n, size_t k, const uint8_t *counters, size_t counters_length,
                                const uint8_t *pointers, size_t pointers_length);

/*
 * The pair count: of the t arrangements from the rank on, the number of those in which module v at setting c
 * stands in some slot and module w at setting e in the next. After T-1 comes home, as often as t leads there,
 * and an arrangement met twice counts twice. Value: that number, 0 to t. Refusals 1, 2, 3, then 8, 11, 12.
 */
uint64_t limpet_pair_count(size_t n, size_t k, uint64_t rank, uint64_t t, size_t v, size_t c, size_t w,
                           size_t e);

/*
 * Reads one entry, 1 to E, of a book: writes the first arrangement of its stretch, whatever the buffers hold.
 * Value: LIMPET_N and LIMPET_K are the entry's n and k. The whole book is checked, whichever entry is asked
 * for. A book has an order of refusals of its own:
 *    13, for a book of under 2 bytes
 *    14
 *    13, for contents that are cut
 *    1, 2, 3, then 15, entry by entry
 *    16
 *    5, 6, then 7, body by body
 *    18
 *    4, unless both buffers have exactly n bytes, n being that of the entry asked for
 * As 4 comes last, and n is never 0, a reading into two buffers of length 0 is refused by 4 exactly where the
 * book is good and has the entry. The entry's n is then the byte at 2 + 14 * (entry - 1).
 */
uint64_t limpet_book_read(const uint8_t *book, size_t book_length, size_t entry, uint8_t *modules,
                          size_t modules_length, uint8_t *settings, size_t settings_length);

/* The plain number of the entry's count, or 0 where limpet_book_read refuses by another number than 4. */
uint64_t limpet_book_count(const uint8_t *book, size_t book_length, size_t entry);

/*
 * The plain number of the rank of the entry's first arrangement, or 0 where limpet_book_read refuses by
 * another number than 4. Rank 0 is also that of home; a count is never 0, and so tells a refusal.
 */
uint64_t limpet_book_rank(const uint8_t *book, size_t book_length, size_t entry);

/*
 * Writes the book of E stretches, in their order, at the start of the buffer, whatever that holds; the bytes
 * behind the book stay. The stretches are lent as four lists: each n and each k in one byte, each rank and each
 * count in eight, the least first. So the lists have E, E, 8 * E and 8 * E bytes, E being the length of the
 * first. Value: the length of the book, at most LIMPET_MOST_BOOK. The refusals, in this order:
 *    4, where a list hasn't that length
 *    14, where E is 0 or above 64
 *    1, 2, 3, 8, then 15 for the count, stretch by stretch, with the stretch, counted from 1, as place
 *    4, for a buffer that is shorter than the book
 * A reading of what is written gives each stretch as it was given; and a book that was read, written again from
 * what was read of it, has the same bytes.
 */
uint64_t limpet_book_write(const uint8_t *ns, size_t ns_length, const uint8_t *ks, size_t ks_length,
                           const uint8_t *ranks, size_t ranks_length, const uint8_t *counts,
                           size_t counts_length, uint8_t *book, size_t book_length);

#ifdef __cplusplus
}
#endif

#endif
