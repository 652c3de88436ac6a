/* The tests of limpet_board_write, limpet_board_step, limpet_board_read and limpet_board_read_rank. */
#include "arrangements.h"
#include "boards.h"
#include "calls.h"
#include "limpet.h"
#include "reference.h"
#include "reference_board.h"
#include "refusals.h"

#include <string.h>

enum { BEFORE_END = 3, AFTER_END = 3, AT_RANDOM = 300, DAMAGED = 500, MOST_DAMAGE = 3, CLOSED = 1 << 8 };

/* A round of at most SEARCHED ranks is searched through for the rank of a board. */
enum { SEARCHED = 1000 };

static void expect_written(const struct call *call, const struct asked *known)
{
    struct asked asked = *known;
    scribble(&asked);
    expect(call, &asked, 0, known);
}

static void expect_stepped(const struct call *call, const struct asked *known)
{
    const size_t n = known->n, k = known->k;
    const uint64_t rank = known->argument, total = reference_round_total(n, k);
    const struct asked next = board_of(n, k, (rank + 1) % total);
    const uint64_t closed = rank == total - 1 ? CLOSED : 0;
    expect(call, known, answered(flip_out_of(n, k, rank) | closed), &next);
}

static void expect_read(const struct call *call, const struct asked *known)
{
    expect(call, known, is_plain(call) ? known->argument : 0, known);
}

/* Asks any of the calls, knowing that the board has the rank that is its argument. */
static void expect_board(const struct call *call, const struct asked *known)
{
    if (call == &board_write_call)
        expect_written(call, known);
    else if (call == &board_step_call)
        expect_stepped(call, known);
    else
        expect_read(call, known);
}

/*
 * 000, appendix A, n = 3 and k = 3, to be read down each column and then to the right: the counters and the
 * first three pointers after each flip. So its first board is that of rank 1, and its last that of rank 0.
 * A ? can't be read in the copy at hand.
 */
enum { LINES = 18, COLUMNS = 9, ENTRY = 8, OF_APPENDIX = 3 };
static const char *const appendix[LINES] = {
    "100/123 101/123 102/123 103/123 104/123 105/123 106/123 107/123 100/124",
    "000/223 001/223 002/223 003/223 004/223 005/223 006/223 007/223 000/224",
    "010/123 011/123 012/123 013/123 014/123 015/123 016/123 017/123 010/124",
    "110/123 111/1?3 112/123 113/123 114/123 115/123 116/123 117/123 110/124",
    "010/223 011/2?3 012/223 013/223 014/223 015/223 016/223 017/223 010/224",
    "020/123 021/1?3 022/123 023/123 024/123 025/123 026/123 027/123 020/124",
    "120/123 121/1?3 122/123 123/123 124/123 125/123 126/123 127/123 120/124",
    "020/223 021/2?3 022/223 023/223 024/223 025/223 026/223 027/223 020/224",
    "030/123 031/1?3 032/123 033/123 034/123 035/123 036/123 037/123 030/124",
    "130/123 131/1?3 132/123 133/123 134/123 135/123 136/123 137/123 130/124",
    "030/223 031/2?3 032/223 033/223 034/223 035/223 036/223 037/223 030/224",
    "040/123 041/123 042/123 043/123 044/123 045/123 046/123 047/123 040/124",
    "140/123 141/123 142/123 143/123 144/123 145/123 146/123 147/123 140/124",
    "040/223 041/223 042/223 043/223 044/223 045/223 046/223 047/223 040/224",
    "000/133 001/1?3 002/133 003/133 004/133 005/133 006/133 007/133 000/143",
    "100/133 101/1?3 102/133 103/133 104/133 105/133 106/133 107/133 100/143",
    "000/323 001/323 002/323 003/323 004/323 005/323 006/323 007/323 000/423",
    "001/123 002/123 003/123 004/123 005/123 006/123 007/123 000/124 000/123",
};

static void published_boards(const struct call *call)
{
    for (size_t which = 0; which < LINES * COLUMNS; which++) {
        const char *entry = appendix[which % LINES] + which / LINES * ENTRY;
        struct asked known = board_of(OF_APPENDIX, OF_APPENDIX, (which + 1) % (LINES * COLUMNS));
        for (size_t i = 0; i < OF_APPENDIX; i++, entry++) {
            known.lent[COUNTERS].bytes[i] = (uint8_t)(entry[0] - '0');
            if (entry[OF_APPENDIX + 1] != '?')
                known.lent[POINTERS].bytes[i] = (uint8_t)(entry[OF_APPENDIX + 1] - '0');
        }
        expect_board(call, &known);
    }
}

static void expect_at(const struct call *call, size_t n, size_t k, uint64_t rank)
{
    const struct asked known = board_of(n, k, rank);
    expect_board(call, &known);
}

static void every_rank(const struct call *call, size_t n, size_t k)
{
    const uint64_t total = reference_round_total(n, k);
    for (uint64_t rank = 0; total <= WHOLE && rank < total; rank++)
        expect_at(call, n, k, rank);
}

static void across_the_end(const struct call *call, size_t n, size_t k)
{
    const uint64_t total = reference_round_total(n, k);
    for (uint64_t step = 0; step < BEFORE_END + AFTER_END; step++)
        expect_at(call, n, k, (total - BEFORE_END % total + step) % total);
}

static void any_rank(const struct call *call, size_t n, size_t k)
{
    for (size_t which = 0; which < n + AT_RANDOM; which++)
        expect_at(call, n, k,
                  (which < n ? rank_with_full_digits(n, k, which + 1) : random_rank(n, k)).argument);
}

/* Whether the bytes are the board of the rank that is the argument. */
static bool is_board(const struct asked *asked)
{
    const size_t n = asked->n;
    uint8_t counters[LIMPET_MOST_SLOTS], pointers[LIMPET_MOST_SLOTS + 1];
    reference_board_write(n, asked->k, asked->argument, counters, n, pointers, n + 1);
    return memcmp(asked->lent[COUNTERS].bytes, counters, n) == 0 &&
           memcmp(asked->lent[POINTERS].bytes, pointers, n + 1) == 0;
}

/* Asks either call that reads, knowing what a search through all ranks finds. */
static void expect_found(const struct call *call, const struct asked *asked)
{
    const uint64_t total = reference_round_total(asked->n, asked->k);
    struct asked known = *asked;
    known.argument = 0;
    while (known.argument < total && !is_board(&known))
        known.argument++;
    if (known.argument < total)
        expect_read(call, &known);
    else
        expect_refused(call, &known, 10, 0);
}

/* Asks a call that is lent a board with what may be no rank's. */
static void try_bytes(const struct call *call, const struct asked *bytes)
{
    struct asked asked = *bytes;
    if (call == &board_step_call || reference_round_total(asked.n, asked.k) > SEARCHED)
        ask(call, &asked);
    else
        expect_found(call, &asked);
}

/* The next bytes in a count through all: counters of 0..k*n and 255, pointers of 0..n+2 and 255. */
static bool count_bytes(struct asked *asked)
{
    const size_t n = asked->n;
    for (size_t i = 0; i < 2 * n + 1; i++) {
        const size_t most = i < n ? asked->k * n : n + 2;
        uint8_t *byte = i < n ? &asked->lent[COUNTERS].bytes[i] : &asked->lent[POINTERS].bytes[i - n];
        if (*byte != 255) {
            *byte = (uint8_t)(*byte < most ? *byte + 1 : 255);
            return true;
        }
        *byte = 0;
    }
    return false;
}

static void all_bytes(const struct call *call, size_t n, size_t k)
{
    struct asked bytes = board_of(n, k, 0);
    if (n > 3 || (n == 3 && k > 1))
        return;
    memset(bytes.lent[COUNTERS].bytes, 0, n);
    memset(bytes.lent[POINTERS].bytes, 0, n + 1);
    do
        try_bytes(call, &bytes);
    while (count_bytes(&bytes));
}

static void one_byte_changed(const struct call *call, size_t n, size_t k)
{
    const struct asked board = random_board(n, k);
    for (size_t i = 0; i < ROWS; i++)
        for (size_t place = 0; place < board.lent[i].length; place++)
            for (unsigned value = 0; value <= 255; value++) {
                struct asked asked = board;
                asked.lent[i].bytes[place] = (uint8_t)value;
                try_bytes(call, &asked);
            }
}

static void damaged_boards(const struct call *call, size_t n, size_t k)
{
    for (int times = 0; times < DAMAGED; times++) {
        struct asked asked = random_board(n, k);
        for (uint64_t damage = draw(MOST_DAMAGE + 1); damage > 0; damage--) {
            const uint8_t any = (uint8_t)(draw(8) == 0 ? draw(256) : draw(n + 3));
            if (draw(2) == 0)
                asked.lent[COUNTERS].bytes[draw(n)] = draw(2) == 0 ? any : (uint8_t)draw(k * n + 2);
            else
                asked.lent[POINTERS].bytes[draw(n + 1)] = any;
        }
        try_bytes(call, &asked);
    }
}

/* One walk by three ways: `looked` by next, `counted` by the flips of the board, and the number. */
struct walk {
    struct asked looked, counted, board;
    uint64_t rank, total;
};

/* The arrangement of the number, by unrank. */
static struct asked numbered(const struct walk *walk)
{
    struct asked asked = random_rank(walk->board.n, walk->board.k);
    asked.argument = walk->rank;
    ask(&unrank_call, &asked);
    return asked;
}

/* A step by each way, held to the flip of the digits and to the arrangement of the next number. */
static void step_three_ways(const struct call *call, struct walk *walk)
{
    const size_t flip = flip_out_of(walk->board.n, walk->board.k, walk->rank);
    const uint64_t closed = walk->rank == walk->total - 1 ? CLOSED : 0;
    walk->rank = (walk->rank + 1) % walk->total;
    const struct asked next = numbered(walk), board = board_of(walk->board.n, walk->board.k, walk->rank);
    walk->counted.argument = flip;
    expect(&look_call, &walk->looked, answered(flip), &walk->looked);
    expect(&next_call, &walk->looked, answered(flip), &next);
    expect(call, &walk->board, answered(flip | closed), &board);
    expect(&flip_call, &walk->counted, 0, &next);
    ask(&next_call, &walk->looked); /* which leaves what the call left */
    ask(&flip_call, &walk->counted);
    ask(call, &walk->board);
}

/* From one number all ways go on: that of either arrangement or of the board, or the one that was kept. */
static void hand_over(struct walk *walk)
{
    switch (draw(4)) {
    case 0: walk->rank = ask(&value_call, &walk->looked); break;
    case 1: walk->rank = ask(&value_call, &walk->counted); break;
    case 2: walk->rank = ask(&board_read_rank_call, &walk->board); break;
    default: break;
    }
    walk->looked = walk->counted = numbered(walk);
    walk->board.argument = walk->rank;
    ask(&board_write_call, &walk->board);
}

static void three_ways(const struct call *call, size_t n, size_t k)
{
    struct walk walk = {.total = reference_round_total(n, k), .board = board_of(n, k, 0)};
    walk.looked = walk.counted = home(n, k);
    if (walk.total > WHOLE)
        return;
    for (uint64_t rank = 0; rank < walk.total; rank++) {
        walk.rank = rank;
        if (draw(8) == 0)
            hand_over(&walk);
        step_three_ways(call, &walk);
    }
}

void board_tests(void)
{
    static const struct call *const lent_a_board[] = {&board_step_call, &board_read_call,
                                                      &board_read_rank_call};
    static const struct test of_each[] = {
        {"the boards of 000, appendix A", .once = published_boards},
        {"every rank, where T <= 50,000", .at_every_size = every_rank},
        {"the ranks T-3 to 2, across the end of the round", .at_every_size = across_the_end},
        {"ranks with every number of full digits, and at random", .at_every_size = any_rank},
    };
    static const struct test of_bytes[] = {
        {"all bytes for 1 and 2 slots, and for 3 with 1 setting", .at_every_size = all_bytes},
        {"a board with one byte changed to every value", .at_every_size = one_byte_changed},
        {"damaged boards at random", .at_every_size = damaged_boards},
    };
    static const struct test of_step[] = {
        {"one walk by three ways, handed over at random, where T <= 50,000", .at_every_size = three_ways},
    };
    run_tests(&board_write_call, of_each, COUNT_OF(of_each));
    rank_refusal_tests(&board_write_call);
    for (size_t i = 0; i < COUNT_OF(lent_a_board); i++) {
        run_tests(lent_a_board[i], of_each, COUNT_OF(of_each));
        run_tests(lent_a_board[i], of_bytes, COUNT_OF(of_bytes));
        refusal_tests(lent_a_board[i]);
    }
    run_tests(&board_step_call, of_step, COUNT_OF(of_step));
}
