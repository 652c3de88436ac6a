/* Rooms for what is lent: see rooms.h. */
#define _DEFAULT_SOURCE /* MAP_ANONYMOUS */

#include "rooms.h"

#include <stdio.h>
#include <stdlib.h>
#include <string.h>
#include <sys/mman.h>

/* A guard page here is a whole number of the processor's pages, on any processor. */
enum { GUARD = 32, PAGE = 1 << 16, ROOM = LENT_MOST + PAGE };

static enum placement placement;

void lend_at(enum placement where)
{
    placement = where;
}

static void end_unless(bool is_done)
{
    if (is_done)
        return;
    perror("the rooms for what is lent");
    exit(1);
}

/* Bytes of the system's, zeros at first. None of them takes memory before it is written. */
static uint8_t *mapped(size_t size, int protection)
{
    uint8_t *const bytes = mmap(NULL, size, protection, MAP_PRIVATE | MAP_ANONYMOUS, -1, 0);
    end_unless(bytes != MAP_FAILED);
    return bytes;
}

/* A page, then each room and a page behind it. */
static uint8_t *make_rooms(void)
{
    uint8_t *const all = mapped(PAGE + ROOMS * (ROOM + PAGE), PROT_NONE);
    for (size_t room = 0; room < ROOMS; room++)
        end_unless(mprotect(all + PAGE + room * (ROOM + PAGE), ROOM, PROT_READ | PROT_WRITE) == 0);
    return all;
}

static uint8_t *lent_from(size_t room, size_t length)
{
    static uint8_t *rooms;
    if (rooms == NULL)
        rooms = make_rooms();
    return rooms + PAGE + room * (ROOM + PAGE) + (placement == BEFORE_PAGE ? ROOM - length : 0);
}

static uint8_t *guards_of(size_t room, size_t length)
{
    uint8_t *const lent = lent_from(room, length);
    return placement == BEFORE_PAGE ? lent - GUARD : lent + length;
}

/* No guard byte is a module or a setting. */
static uint8_t guard_byte(size_t i)
{
    return (uint8_t)(0x80 | i * 37);
}

uint8_t *lend(size_t room, const uint8_t *bytes, size_t length)
{
    uint8_t *const lent = lent_from(room, length), *const guards = guards_of(room, length);
    for (size_t i = 0; i < GUARD; i++)
        guards[i] = guard_byte(i);
    if (length == 0)
        return placement == BEFORE_PAGE ? NULL : lent;
    return memcpy(lent, bytes, length);
}

uint8_t *lend_far(size_t room, const uint8_t *bytes, size_t length, bool is_written)
{
    static uint8_t *far[ROOMS];
    if (far[room] == NULL)
        far[room] = mapped(ROOM + FAR_MORE, PROT_READ);
    end_unless(mprotect(far[room], ROOM, PROT_READ | PROT_WRITE) == 0);
    if (length > 0)
        memcpy(far[room], bytes, length);
    end_unless(is_written || mprotect(far[room], ROOM, PROT_READ) == 0);
    return far[room];
}

bool are_guards_whole(size_t room, size_t length)
{
    const uint8_t *const guards = guards_of(room, length);
    for (size_t i = 0; i < GUARD; i++)
        if (guards[i] != guard_byte(i))
            return false;
    return true;
}
