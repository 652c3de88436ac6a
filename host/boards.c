/* Boards to ask with: see boards.h. */
#include "boards.h"

#include "arrangements.h"
#include "limpet.h"
#include "reference_board.h"

struct asked random_rank_of_board(size_t n, size_t k)
{
    struct asked asked = random_rank(n, k);
    asked.lent[POINTERS].length = n + 1;
    return asked;
}

struct asked board_of(size_t n, size_t k, uint64_t rank)
{
    struct asked asked = {.n = n, .k = k, .argument = rank};
    asked.lent[COUNTERS].length = n;
    asked.lent[POINTERS].length = n + 1;
    reference_board_write(n, k, rank, asked.lent[COUNTERS].bytes, n, asked.lent[POINTERS].bytes, n + 1);
    return asked;
}

struct asked random_board(size_t n, size_t k)
{
    struct asked asked = random_rank_of_board(n, k);
    unsigned digits[LIMPET_MOST_SLOTS];
    for (size_t j = 1; j <= n; j++)
        digits[j - 1] = (unsigned)(draw(2) == 0 ? k * j - 1 : draw(k * j));
    write_board_of_digits(n, k, digits, asked.lent[COUNTERS].bytes, asked.lent[POINTERS].bytes);
    return asked;
}
