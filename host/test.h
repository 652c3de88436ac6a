/*
 * The test frame. A test asks the library and the reference the same, and holds the answer and every
 * lent byte to the reference's. In the tests, 01 is 01-scope.md.
 */
#ifndef TEST_H
#define TEST_H

#include "program.h"
#include "rooms.h"

#include <stdbool.h>
#include <stddef.h>
#include <stdint.h>

#define COUNT_OF(array) (sizeof(array) / sizeof((array)[0]))

/* The lists of stretches that a book is written from. */
enum { NS, KS, RANKS, COUNTS, LISTS };

/* The rows that a call is lent, each from a room of its own, and so the book and the lists. */
enum { MODULES, SETTINGS, ROWS, COUNTERS = MODULES, POINTERS, BOOK = ROWS, FIRST_LIST };

/* ROW_MOST has room for a length whose low byte alone is right. */
enum { ROW_MOST = 300, REFUSALS_MOST = 14 };

struct row {
    size_t length;
    uint8_t bytes[ROW_MOST];
};

/* Bytes that are lent: a book, or a list of stretches. */
struct bytes {
    size_t length;
    const uint8_t *at;
};

/* 01's v:c and w:e. */
struct pair {
    size_t v, c, w, e;
};

/* What a call is asked: the sizes, the further numbers that some calls take, and what it is lent. */
struct asked {
    size_t n, k, argument;
    uint64_t count; /* of a stretch, which begins at the rank that is the argument */
    struct pair pair;
    struct bytes book; /* whose entry asked for is the argument, or to be written over */
    struct bytes lists[LISTS];
    struct row lent[ROWS];
};

/* A function by what it takes: one of these is set. */
struct function {
    uint64_t (*of_sizes)(size_t n, size_t k);
    uint64_t (*reading)(size_t n, size_t k, const uint8_t *, size_t, const uint8_t *, size_t);
    uint64_t (*changing)(size_t n, size_t k, uint8_t *, size_t, uint8_t *, size_t);
    uint64_t (*writing)(size_t n, size_t k, size_t argument, uint8_t *, size_t, uint8_t *, size_t);
    uint64_t (*counting)(size_t n, size_t k, uint64_t rank, uint64_t count, size_t v, size_t c, size_t w,
                         size_t e);
    uint64_t (*of_book)(const uint8_t *, size_t, size_t entry);
    uint64_t (*from_book)(const uint8_t *, size_t, size_t entry, uint8_t *, size_t, uint8_t *, size_t);
    uint64_t (*to_book)(const uint8_t *ns, size_t, const uint8_t *ks, size_t, const uint8_t *ranks, size_t,
                        const uint8_t *counts, size_t, uint8_t *, size_t);
};

/* A call under test, with its refusals in the order in which they are tried. */
struct call {
    const char *name;
    unsigned refusals[REFUSALS_MOST];
    struct function library, reference;

    /* Set for one that answers a plain number, which is 0 where it refuses: the call that tells the refusal. */
    const struct call *told_by;

    /* What the call takes where it takes n and k, at random; for any n of 1..20 and k of 1..8. */
    struct asked (*fair)(size_t n, size_t k);

    /* Puts some of the call's faults, any or none, into what is fair. */
    void (*spoil)(const struct call *call, struct asked *asked);

    /* Whether a call that is done can have this value, or this plain number. */
    bool (*is_value)(const struct asked *asked, uint64_t value);

    size_t longer[ROWS]; /* by how many bytes each row is longer than n */
};

/* A named test, whose body is run once or at every permitted size. One body serves several calls. */
struct test {
    const char *name;
    void (*once)(const struct call *call);
    void (*at_every_size)(const struct call *call, size_t n, size_t k);
};

bool is_plain(const struct call *call);

void run_tests(const struct call *call, const struct test *tests, size_t count);

/* Prints how many tests passed and failed, and answers the program's exit status. */
int end_of_tests(void);

/* A number below `below`, or any of 64 bits, from a stream that begins anew with each test. */
uint64_t draw(uint64_t below);
uint64_t draw_word(void);

/* The numbers that may stand for `good`, one of 1..most, and are refused; several have its low bits. */
enum { BEYOND = 10 };
size_t beyond(size_t which, size_t good, size_t most);

/* The ranks that may stand for `good`, one below `total`, and are refused. */
enum { RANKS_BEYOND = 7 };
uint64_t rank_beyond(size_t which, uint64_t good, uint64_t total);

/*
 * Makes the call and holds it to the reference. Leaves in `asked` what the call left in the buffers; the next
 * call that writes a book writes over the one that this call left.
 */
uint64_t ask(const struct call *call, struct asked *asked);

/*
 * Makes a call: what is lent from these rooms has FAR_MORE bytes more than is asked. It has to refuse, unless
 * what is so long is a book that it writes.
 */
uint64_t ask_far(const struct call *call, const struct asked *asked, const bool is_far[ROOMS]);

/* Asks, and holds answer and buffers also to those that the test itself knows. */
void expect(const struct call *call, const struct asked *asked, uint64_t answer, const struct asked *left);
void expect_refused(const struct call *call, const struct asked *asked, uint64_t number, uint64_t place);

/* Holds a call to what is said of it in words. */
void expect_that(bool holds, const struct call *call, const struct asked *asked, const char *what);

/* Holds a line of text to the one that is known; either is NULL where there is none. */
void expect_line(const char *came, const char *known);

/* Holds what a program printed to what is known, byte for byte; `asked` is its input. */
void expect_text(struct text asked, struct text came, struct text known);

/* One for each file of tests. */
void sizes_tests(void);
void check_tests(void);
void flip_tests(void);
void rank_tests(void);
void look_tests(void);
void board_tests(void);
void pair_tests(void);
void book_tests(void);
void book_write_tests(void);
void planner_tests(void);
void handover_tests(void);
void station_tests(void);
void listing_tests(void);
void papers_tests(void);
void totality_tests(void);
void page_tests(void);

#endif
