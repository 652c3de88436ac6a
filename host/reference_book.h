/*
 * The reference of books: plain C written from 01-scope.md, sections "Stretch books" and "Numbers of
 * refusal", and for the writing from request W-201 of 02-change-requests.md, alone. Each function takes and
 * answers what limpet.h says of the call of the same name.
 */
#ifndef REFERENCE_BOOK_H
#define REFERENCE_BOOK_H

#include <stddef.h>
#include <stdint.h>

uint64_t reference_book_read(const uint8_t *book, size_t book_length, size_t entry, uint8_t *modules,
                             size_t modules_length, uint8_t *settings, size_t settings_length);
uint64_t reference_book_count(const uint8_t *book, size_t book_length, size_t entry);
uint64_t reference_book_rank(const uint8_t *book, size_t book_length, size_t entry);
uint64_t reference_book_write(const uint8_t *ns, size_t ns_length, const uint8_t *ks, size_t ks_length,
                              const uint8_t *ranks, size_t ranks_length, const uint8_t *counts,
                              size_t counts_length, uint8_t *book, size_t book_length);

#endif
