/* Faults to ask with: see faults.h. */
#include "faults.h"

#include "limpet.h"
#include "reference.h"
#include "reference_board.h"
#include "stretches.h"

size_t length_at(const struct call *call, size_t row, size_t which, size_t n)
{
    const size_t right = n + call->longer[row];
    const size_t all[LENGTHS] = {right, 0, right - 1, right + 1, 256 + right, ROW_MOST};
    return all[which];
}

void spoil(const struct call *call, struct asked *asked, unsigned number, size_t slot)
{
    const uint64_t total = reference_round_total(asked->n, asked->k);
    const size_t row = number == 4 ? draw(ROWS) : 0, s = first_digit(asked->k);
    uint8_t *modules = asked->lent[MODULES].bytes, *settings = asked->lent[SETTINGS].bytes;
    uint8_t *pointers = asked->lent[POINTERS].bytes;
    switch (number) {
    case 1: asked->n = beyond(draw(BEYOND), asked->n, LIMPET_MOST_SLOTS); break;
    case 2: asked->k = beyond(draw(BEYOND), asked->k, LIMPET_MOST_SETTINGS); break;
    case 4: asked->lent[row].length = length_at(call, row, 1 + draw(LENGTHS - 1), asked->n); break;
    case 5: modules[slot - 1] = (uint8_t)(draw(4) == 0 ? 0 : 255 - draw(255 - asked->n)); break;
    case 6: modules[slot - 1] = modules[draw(slot - 1)]; break;
    case 7: settings[slot - 1] = (uint8_t)(255 - draw(256 - asked->k)); break;
    case 8: asked->argument = rank_beyond(draw(RANKS_BEYOND), asked->argument, total); break;
    case 9: asked->argument = beyond(draw(BEYOND), asked->argument, asked->n); break;
    case 10: pointers[s - 1] = (uint8_t)(draw(4) == 0 ? draw(s) : 255 - draw(254 - asked->n)); break;
    case 11: asked->count = count_beyond(draw(COUNTS_BEYOND), asked->count); break;
    case 12: asked->pair = bad_pair(draw(BAD_PAIRS), asked->pair, asked->n, asked->k); break;
    default: break;
    }
}

size_t first_slot(unsigned number)
{
    return number == 6 ? 2 : 1;
}

void spoil_at_random(const struct call *call, struct asked *asked)
{
    for (size_t i = REFUSALS_MOST; i-- > 0;) {
        const size_t slot = 1 + draw(asked->n);
        if (draw(4) == 0 && slot >= first_slot(call->refusals[i]))
            spoil(call, asked, call->refusals[i], slot);
    }
}
