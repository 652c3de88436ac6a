/*
 * The reference of the programs book_write and book_read: plain C on the reference of books, which reads the
 * lines of 01-scope.md's listing, and prints the slots as that does.
 */
#ifndef REFERENCE_PLANNER_H
#define REFERENCE_PLANNER_H

#include <stddef.h>

/* What a program prints to standard output, and to standard error; one of the two is nothing. */
enum { PRINTED_MOST = 1 << 14, REFUSAL_MOST = 64 };
struct printed {
    size_t length;
    char output[PRINTED_MOST], errors[REFUSAL_MOST];
};

/* For an input of any bytes: a book from its lines, and the lines of a book. */
void reference_planner_write(const char *input, size_t length, struct printed *printed);
void reference_planner_read(const char *input, size_t length, struct printed *printed);

#endif
