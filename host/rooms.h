/*
 * Rooms for what is lent to a call. Each lies between two guard pages that nobody may touch, and what is lent
 * stands right beside one of them: a call that reads or writes a byte past that end ends the test program. At
 * the other end there are guard bytes.
 */
#ifndef ROOMS_H
#define ROOMS_H

#include <stdbool.h>
#include <stddef.h>
#include <stdint.h>

/* As many rooms as a call is lent buffers, and the most bytes that are lent from one. */
enum { ROOMS = 7, LENT_MOST = 1 << 20 };

/* Where in its room each buffer is lent from now on. */
enum placement { BEFORE_PAGE, BEHIND_PAGE };
void lend_at(enum placement placement);

/* Puts bytes into a room and answers where they are. No bytes are NULL before a page, and not behind one. */
uint8_t *lend(size_t room, const uint8_t *bytes, size_t length);

/*
 * The same where FAR_MORE bytes more are lent behind these. None of all that can be written, or, where that is
 * said, only these bytes and some behind them.
 */
#define FAR_MORE ((size_t)1 << 32)
uint8_t *lend_far(size_t room, const uint8_t *bytes, size_t length, bool is_written);

/* Whether the guard bytes beside what was lent are as they were made. */
bool are_guards_whole(size_t room, size_t length);

#endif
