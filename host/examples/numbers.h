/* The numbers in the arguments of the examples. */
#ifndef NUMBERS_H
#define NUMBERS_H

#include <ctype.h>
#include <errno.h>
#include <stddef.h>
#include <stdint.h>
#include <stdlib.h>

/* Reads a decimal number of at most `most`. Answers what stands behind it, or NULL where there is none. */
static inline const char *read_number(const char *at, uint64_t most, uint64_t *number)
{
    char *end;
    if (!isdigit((unsigned char)*at))
        return NULL;
    errno = 0;
    *number = strtoull(at, &end, 10);
    return errno != 0 || *number > most ? NULL : end;
}

#endif
