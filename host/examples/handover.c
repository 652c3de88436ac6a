/*
 * Three machines share one round of 3 modules with 2 settings. They begin with a board, a number and a
 * saved arrangement:
 *
 *    the first   goes by the counters of a board, and hands over the number that it reads off the board
 *    the second  begins with that number, goes by looking, and saves its arrangement
 *    the third   has the saved arrangement and nothing else, and goes by looking
 *
 * A line per arrangement: its rank, the flip out of it, and its slots, module:setting. At the end all of
 * the round has been met, and nothing twice.
 */
#include "limpet.h"

#include <inttypes.h>
#include <stdio.h>
#include <stdlib.h>

enum { N = 3, K = 2, TOTAL = 48, START = 40, STRETCH = TOTAL / 3 };

struct arrangement {
    uint8_t modules[N], settings[N];
};

struct board {
    uint8_t counters[N], pointers[N + 1];
};

static unsigned times_met[TOTAL];

/* Answers the value, and ends the program where the library refused. */
static uint64_t value_of(uint64_t answer)
{
    if (LIMPET_NUMBER(answer) != 0) {
        printf("refused by %" PRIu64 " at place %" PRIu64 "\n", LIMPET_NUMBER(answer), LIMPET_PLACE(answer));
        exit(1);
    }
    return LIMPET_VALUE(answer);
}

static uint64_t rank_of(const struct arrangement *at)
{
    value_of(limpet_rank(N, K, at->modules, N, at->settings, N));
    return limpet_rank_value(N, K, at->modules, N, at->settings, N);
}

static struct arrangement arrangement_of(uint64_t rank)
{
    struct arrangement at;
    value_of(limpet_unrank(N, K, rank, at.modules, N, at.settings, N));
    return at;
}

static struct board board_of(uint64_t rank)
{
    struct board board;
    value_of(limpet_board_write(N, K, rank, board.counters, N, board.pointers, N + 1));
    return board;
}

static uint64_t rank_read_off(const struct board *board)
{
    value_of(limpet_board_read(N, K, board->counters, N, board->pointers, N + 1));
    return limpet_board_read_rank(N, K, board->counters, N, board->pointers, N + 1);
}

static void meet(const struct arrangement *at, uint64_t flip)
{
    const uint64_t rank = rank_of(at);
    times_met[rank]++;
    printf("%2" PRIu64 " %" PRIu64, rank, flip);
    for (int i = 0; i < N; i++)
        printf(" %u:%u", at->modules[i], at->settings[i]);
    printf("\n");
}

/* Walks a stretch by a board, from the rank on, and answers the rank that comes then. It keeps no count. */
static uint64_t walk_by_counters(uint64_t rank)
{
    struct arrangement at = arrangement_of(rank);
    struct board board = board_of(rank);
    for (int i = 0; i < STRETCH; i++) {
        const uint64_t answer = limpet_board_step(N, K, board.counters, N, board.pointers, N + 1);
        value_of(answer);
        meet(&at, LIMPET_FLIP(answer));
        value_of(limpet_flip(N, K, LIMPET_FLIP(answer), at.modules, N, at.settings, N));
        if (LIMPET_CLOSED(answer))
            printf("   the round closes, and begins again\n");
    }
    return rank_read_off(&board);
}

/* Walks a stretch by looking, and answers the arrangement that comes then. */
static struct arrangement walk_by_looking(struct arrangement at)
{
    for (int i = 0; i < STRETCH; i++) {
        const struct arrangement before = at;
        const uint64_t flip = value_of(limpet_next(N, K, at.modules, N, at.settings, N));
        meet(&before, flip);
    }
    return at;
}

static unsigned count_met(unsigned times)
{
    unsigned count = 0;
    for (size_t rank = 0; rank < TOTAL; rank++)
        count += times_met[rank] == times;
    return count;
}

int main(void)
{
    printf("the first machine goes by counters, from number %d on\n", START);
    const uint64_t number = walk_by_counters(START);
    printf("it hands over the number %" PRIu64 "\n\n", number);

    printf("the second machine goes on from the number, by looking\n");
    const struct arrangement saved = walk_by_looking(arrangement_of(number));
    printf("it saves the arrangement that comes next\n\n");

    printf("the third machine goes on from the saved arrangement\n");
    const struct arrangement after = walk_by_looking(saved);
    printf("then comes the number %" PRIu64 ", where the first machine began\n\n", rank_of(&after));

    const unsigned once = count_met(1), skipped = count_met(0);
    printf("of %" PRIu64 " arrangements %u were met once, %u were skipped and %u met twice\n",
           limpet_round_total(N, K), once, skipped, TOTAL - once - skipped);
    return once == TOTAL ? 0 : 1;
}
