/*
 * The tests of all calls alike: whatever is asked, a call comes back, keeps to the bytes it is lent, changes
 * none of them where it refuses, and answers numbers that limpet.h allows.
 */
#define _POSIX_C_SOURCE 200809L /* alarm */

#include "arrangements.h"
#include "books.h"
#include "calls.h"
#include "faults.h"
#include "limpet.h"
#include "plans.h"
#include "readings.h"
#include "reference.h"

#include <stdio.h>
#include <stdlib.h>
#include <string.h>
#include <unistd.h>

/* How often a call is asked, and how often one that takes a book or a stretch, which cost more. */
enum { ASKED = 75000, FEWER_ASKED = 25000, NUMBERS_OF_ASKED = 8, LINE_MOST = 256, SECONDS_MOST = 900 };

static size_t any_number(void)
{
    static const size_t extremes[] = {0, 1, 20, 21, 255, 256, (size_t)1 << 32, SIZE_MAX};
    switch (draw(4)) {
    case 0: return extremes[draw(COUNT_OF(extremes))];
    case 1: return draw(LIMPET_MOST_SLOTS + 3);
    case 2: return ((size_t)1 << draw(64)) - 1 + draw(3);
    default: return draw_word();
    }
}

/* None, the fair length or one byte more or less, or any other that a row has room for. */
static size_t any_length(size_t fair)
{
    switch (draw(3)) {
    case 0: return 0;
    case 1: return fair == 0 ? draw(2) : fair - 1 + draw(3);
    default: return draw(ROW_MOST + 1);
    }
}

static bool is_lent_book(const struct call *call)
{
    return call->library.of_book != NULL || call->library.from_book != NULL;
}

static bool is_lent_lists(const struct call *call)
{
    return call->library.to_book != NULL;
}

/* Random bytes, of which the head may be good; or a fair book with some bytes changed, or of another length. */
static struct bytes any_book(struct bytes fair)
{
    static uint8_t bytes[LIMPET_MOST_BOOK + SPARE];
    const uint64_t kind = draw(4);
    struct bytes book = {fair.length, bytes};
    memcpy(bytes, fair.at, fair.length);
    if (kind <= 1)
        scribble_bytes(bytes + 2 * kind, sizeof bytes - 2 * kind);
    if (kind <= 1 || kind == 3)
        book.length = draw(draw(2) == 0 ? sizeof bytes + 1 : fair.length + 1);
    for (uint64_t changed = kind == 2 ? 1 + draw(3) : 0; changed > 0; changed--)
        bytes[draw(fair.length)] = (uint8_t)draw(256);
    return book;
}

/* Lists of one number of stretches or of any lengths, each with random bytes or those that it had. */
static void change_lists(struct asked *asked)
{
    static uint8_t bytes[LISTS][LIST_MOST];
    const size_t stretches = draw(draw(4) == 0 ? LISTED_MOST : LIMPET_MOST_ENTRIES + 3);
    const bool is_of_one_number = draw(2) == 0;
    for (size_t i = 0; i < LISTS; i++) {
        struct bytes *const list = &asked->lists[i];
        scribble_bytes(bytes[i], LIST_MOST);
        if (list->length > 0 && draw(2) == 0)
            memcpy(bytes[i], list->at, list->length);
        list->at = bytes[i];
        list->length = is_of_one_number ? stretches * width_of(i) : any_length(list->length);
    }
}

/* Puts any other into the place of each number, length, book, list and some bytes, one time in `one_in`. */
static void change(const struct call *call, struct asked *asked, uint64_t one_in)
{
    uint64_t *const numbers[NUMBERS_OF_ASKED] = {&asked->n,      &asked->k,      &asked->argument,
                                                 &asked->count,  &asked->pair.v, &asked->pair.c,
                                                 &asked->pair.w, &asked->pair.e};
    for (size_t i = 0; i < NUMBERS_OF_ASKED; i++)
        if (draw(one_in) == 0)
            *numbers[i] = any_number();
    for (struct row *row = asked->lent; row < asked->lent + ROWS; row++) {
        if (draw(one_in) == 0)
            row->length = any_length(row->length);
        if (draw(one_in) == 0)
            scribble_bytes(row->bytes + draw(LIMPET_MOST_SLOTS), LIMPET_MOST_SLOTS);
    }
    if ((is_lent_book(call) || is_lent_lists(call)) && draw(one_in) == 0)
        asked->book = any_book(asked->book);
    if (is_lent_lists(call) && draw(one_in) == 0)
        change_lists(asked);
}

/* Fair but for some faults of the call's own, fair but for some of it, or all of it anything. */
static struct asked any_asked(const struct call *call)
{
    struct asked asked = call->fair(1 + draw(LIMPET_MOST_SLOTS), 1 + draw(LIMPET_MOST_SETTINGS));
    switch (draw(4)) {
    case 0: change(call, &asked, 1); break;
    case 1: change(call, &asked, 8); break;
    default: call->spoil(call, &asked); break;
    }
    return asked;
}

static bool has_refusal(const struct call *call, uint64_t number)
{
    for (const unsigned *refusal = call->refusals; *refusal != 0; refusal++)
        if (*refusal == number)
            return true;
    return false;
}

/* The verdict that goes with an answer. A plain number of a book isn't refused by 4: it is lent no rows. */
static uint64_t verdict_on(const struct call *call, const struct asked *asked, uint64_t answer)
{
    struct asked again = *asked;
    if (!is_plain(call))
        return answer;
    const uint64_t verdict = ask(call->told_by, &again);
    return has_refusal(call, LIMPET_NUMBER(verdict)) ? verdict : 0;
}

/* A slot, an entry of a book, a stretch, or 0 for a number that has no place. */
static bool is_place(const struct call *call, const struct asked *asked, unsigned number, uint64_t place)
{
    const bool of_arrangement = number >= 5 && number <= 7;
    if (is_lent_book(call) && (of_arrangement || number <= 3 || number == 15))
        return place >= 1 && place <= asked->book.at[1];
    if (is_lent_lists(call) && (number <= 3 || number == 8 || number == 15))
        return place >= 1 && place <= asked->lists[NS].length;
    if (!is_lent_book(call) && of_arrangement)
        return place >= first_slot(number) && place <= asked->n;
    return place == 0;
}

static bool is_allowed(const struct call *call, const struct asked *asked, uint64_t answer, uint64_t verdict)
{
    const unsigned number = (unsigned)LIMPET_NUMBER(verdict);
    const uint64_t place = LIMPET_PLACE(verdict), value = is_plain(call) ? answer : LIMPET_VALUE(answer);
    if (number == 0)
        return place == 0 && call->is_value(asked, value);
    return has_refusal(call, number) && is_place(call, asked, number, place) && value == 0;
}

static bool has_same_bytes(const struct asked *a, const struct asked *b)
{
    return (a->book.length == 0 || memcmp(a->book.at, b->book.at, a->book.length) == 0) &&
           memcmp(a->lent[0].bytes, b->lent[0].bytes, a->lent[0].length) == 0 &&
           memcmp(a->lent[1].bytes, b->lent[1].bytes, a->lent[1].length) == 0;
}

/* Asks anything once, and answers the number of the refusal. */
static uint64_t ask_anything(const struct call *call)
{
    const struct asked asked = any_asked(call);
    struct asked left = asked;
    const uint64_t answer = is_lent_book(call) ? ask_reading(call, &left) : ask(call, &left);
    const uint64_t verdict = verdict_on(call, &asked, answer);
    expect_that(is_allowed(call, &asked, answer, verdict), call, &asked, "an answer that limpet.h allows");
    expect_that(LIMPET_NUMBER(verdict) == 0 || has_same_bytes(&asked, &left), call, &asked,
                "no byte changed by a call that refuses");
    return LIMPET_NUMBER(verdict);
}

/* A call that doesn't come back is ended by the alarm, and the program with it. */
static void anything(const struct call *call)
{
    const bool is_costly = is_lent_book(call) || is_lent_lists(call) || call->library.counting != NULL;
    const size_t times = is_costly ? FEWER_ASKED : ASKED;
    bool met[UINT8_MAX + 1] = {false};
    alarm(SECONDS_MOST);
    for (size_t i = 0; i < times; i++)
        met[ask_anything(call)] = true;
    alarm(0);
    expect_line(met[0] ? "done" : "never done", "done");
    for (const unsigned *refusal = call->refusals; *refusal != 0; refusal++) {
        char line[LINE_MOST];
        sprintf(line, "refused by %u", *refusal);
        expect_line(met[*refusal] ? line : "never met", line);
    }
}

static void anything_behind_a_page(const struct call *call)
{
    lend_at(BEHIND_PAGE);
    anything(call);
}

static bool is_lent_rows(const struct call *call)
{
    return has_refusal(call, 4) && !is_lent_lists(call);
}

/* Buffers of a length of which the low 32 bits are right. */
static void far_lengths(const struct call *call, size_t n, size_t k)
{
    for (unsigned rooms = 1; rooms < 1u << FIRST_LIST; rooms++) {
        const bool is_far[ROOMS] = {rooms & 1, rooms & 2, rooms & 4};
        const struct asked asked = call->fair(n, k);
        if (is_far[BOOK] ? !is_lent_book(call) : !is_lent_rows(call))
            continue;
        const uint64_t known = is_plain(call) ? 0 : refused(is_far[BOOK] ? 16 : 4, 0);
        expect_that(ask_far(call, &asked, is_far) == known, call, &asked, "refused for 2^32 bytes more");
    }
}

/* Whether a name of limpet.h, which a parenthesis ends, is that of the call. */
static bool is_named(const struct call *call, const char *name)
{
    const char *at = call->name;
    for (; *at != '\0' && *name == (*at == ' ' ? '_' : *at); name++)
        at++;
    return *at == '\0' && *name == '(';
}

/* Holds the table of the calls to the prototypes of the header. */
static void every_prototype(const struct call *call)
{
    static const char before_name[] = "uint64_t limpet_";
    FILE *const header = fopen(HEADER, "r");
    size_t prototypes = 0;
    char line[LINE_MOST];
    (void)call;
    while (header != NULL && fgets(line, sizeof line, header) != NULL) {
        const char *const name = line + sizeof before_name - 1;
        size_t which = 0;
        if (strncmp(line, before_name, sizeof before_name - 1) != 0)
            continue;
        while (which < CALLS && !is_named(all_calls[which], name))
            which++;
        prototypes++;
        expect_line(which < CALLS ? NULL : name, NULL);
    }
    expect_line(prototypes == CALLS ? NULL : "another number of prototypes than of calls", NULL);
    if (header != NULL)
        fclose(header);
}

void totality_tests(void)
{
    static const struct call all = {.name = "all calls"};
    static const struct test of_all[] = {
        {"each prototype of limpet.h is tried, and no other", .once = every_prototype},
    };
    static const struct test of_each[] = {
        {"anything, lent right before a guard page", .once = anything},
        {"anything, lent right behind a guard page", .once = anything_behind_a_page},
    };
    static const struct test of_lent[] = {
        {"4 for rows, and 16 for a book, of 2^32 bytes more", .at_every_size = far_lengths},
    };
    run_tests(&all, of_all, COUNT_OF(of_all));
    for (size_t i = 0; i < CALLS; i++) {
        run_tests(all_calls[i], of_each, COUNT_OF(of_each));
        if (is_lent_rows(all_calls[i]) || is_lent_book(all_calls[i]))
            run_tests(all_calls[i], of_lent, COUNT_OF(of_lent));
    }
}
