/* Plans: see plans.h. */
#include "plans.h"

#include "reference.h"

#include <string.h>

enum { FEW_STRETCHES = 4 };

size_t width_of(size_t list)
{
    static const size_t widths[LISTS] = {[NS] = 1, [KS] = 1, [RANKS] = 8, [COUNTS] = 8};
    return widths[list];
}

static void put_in_list(struct plan *plan, size_t list, size_t number, uint64_t value)
{
    put_number(plan->lists[list] + (number - 1) * width_of(list), width_of(list), value);
}

static uint64_t get_from_list(const struct plan *plan, size_t list, size_t number)
{
    return get_number(plan->lists[list] + (number - 1) * width_of(list), width_of(list));
}

void put_stretch(struct plan *plan, size_t number, struct stretch stretch)
{
    put_in_list(plan, NS, number, stretch.n);
    put_in_list(plan, KS, number, stretch.k);
    put_in_list(plan, RANKS, number, stretch.rank);
    put_in_list(plan, COUNTS, number, stretch.count);
}

void take_stretches(struct plan *plan, size_t count)
{
    for (size_t list = 0; list < LISTS; list++)
        plan->lengths[list] = count * width_of(list);
}

struct plan plan_of(const struct book *book)
{
    struct plan plan = {.room = book->length};
    memset(plan.lists, 1, sizeof plan.lists);
    for (size_t i = 0; i < LISTED_MOST; i++)
        put_stretch(&plan, i + 1, book->stretches[i % book->entries]);
    take_stretches(&plan, book->entries);
    for (size_t i = 0; i < sizeof plan.buffer; i++)
        plan.buffer[i] = (uint8_t)~book->bytes[i];
    return plan;
}

struct asked asked_to_write(const struct plan *plan)
{
    struct asked asked = {.book = {plan->room, plan->buffer}};
    for (size_t list = 0; list < LISTS; list++)
        asked.lists[list] = (struct bytes){plan->lengths[list], plan->lists[list]};
    return asked;
}

static struct plan lent_plan; /* by those that answer what is asked */

static struct asked lend_plan_of(const struct book *book)
{
    lent_plan = plan_of(book);
    return asked_to_write(&lent_plan);
}

struct asked random_plan(size_t n, size_t k)
{
    struct book book = book_of(1 + draw(draw(8) == 0 ? LIMPET_MOST_ENTRIES : FEW_STRETCHES));
    book.stretches[draw(book.entries)] = stretch_of_size(n, k);
    write_book(&book);
    lend_plan_of(&book);
    lent_plan.room += draw(2) == 0 ? 0 : draw(SPARE);
    return asked_to_write(&lent_plan);
}

/* As many stretches of one size. */
static struct asked plan_of_size(size_t count, size_t n, size_t k)
{
    static struct book book;
    book.entries = count;
    for (size_t i = 0; i < count; i++)
        book.stretches[i] = stretch_of_size(n, k);
    write_book(&book);
    return lend_plan_of(&book);
}

struct asked plan_of_one(size_t n, size_t k)
{
    return plan_of_size(1, n, k);
}

struct asked plan_of_most(size_t n, size_t k)
{
    return plan_of_size(LIMPET_MOST_ENTRIES, n, k);
}

bool is_of_stretch(enum plan_fault fault)
{
    return fault >= LISTED_N && fault <= LISTED_COUNT;
}

/* A length that may stand for `good`, and isn't it. */
static size_t other_length(size_t good)
{
    const size_t all[] = {0,        1,        good - 1, good + 1,   good + 7, good - 8,
                          good + 8, good / 8, 8 * good, good + 256, LIST_MOST};
    size_t length;
    do
        length = all[draw(COUNT_OF(all))];
    while (length == good || length > LIST_MOST);
    return length;
}

static void spoil_stretch(struct plan *plan, enum plan_fault fault, size_t number)
{
    uint8_t sizes[] = {(uint8_t)get_from_list(plan, NS, number), (uint8_t)get_from_list(plan, KS, number)};
    const uint64_t total = reference_round_total(sizes[0], sizes[1]);
    const uint64_t rank = get_from_list(plan, RANKS, number), count = get_from_list(plan, COUNTS, number);
    if (fault == LISTED_RANK)
        put_in_list(plan, RANKS, number, rank_beyond(draw(RANKS_BEYOND), rank, total));
    else if (fault == LISTED_COUNT)
        put_in_list(plan, COUNTS, number, bad_count(draw(BAD_COUNTS), count, total));
    else if (fault == LISTED_N)
        sizes[0] = byte_beyond(LIMPET_MOST_SLOTS, UINT8_MAX);
    else if (fault == LISTED_K)
        sizes[1] = byte_beyond(LIMPET_MOST_SETTINGS, UINT8_MAX);
    else
        enlarge(sizes);
    put_in_list(plan, NS, number, sizes[0]);
    put_in_list(plan, KS, number, sizes[1]);
}

void spoil_plan(struct plan *plan, enum plan_fault fault, size_t number)
{
    const size_t list = draw(LISTS), too_many = LIMPET_MOST_ENTRIES + 1;
    if (is_of_stretch(fault))
        spoil_stretch(plan, fault, number);
    else if (fault == LISTS_DIFFER)
        plan->lengths[list] = other_length(plan->lengths[list]);
    else if (fault == NONE_OR_MANY)
        take_stretches(plan, draw(4) == 0 ? 0 : too_many + draw(LISTED_MOST + 1 - too_many));
    else
        plan->room = draw(plan->room);
}

/* A buffer that is longer than the book may be spoilt and still be long enough. */
void spoil_random_plan(const struct call *call, struct asked *asked)
{
    const size_t stretches = lent_plan.lengths[NS];
    (void)call;
    for (size_t fault = PLAN_FAULTS; fault-- > 0;)
        if (draw(8) == 0)
            spoil_plan(&lent_plan, (enum plan_fault)fault, 1 + draw(stretches));
    *asked = asked_to_write(&lent_plan);
}
