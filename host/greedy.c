/* The greedy min-flip construction: see greedy.h. */
#include "greedy.h"

#include "arrangements.h"
#include "reference.h"

#include <stdlib.h>

/* The arrangement as a number: its slots as digits to the base n * k. */
static size_t code_of(const struct asked *asked)
{
    size_t code = 0;
    for (size_t i = 0; i < asked->n; i++) {
        const size_t module = asked->lent[MODULES].bytes[i], setting = asked->lent[SETTINGS].bytes[i];
        code = code * asked->n * asked->k + (module - 1) * asked->k + setting;
    }
    return code;
}

/* A mark for each code, none set. */
static bool *unvisited(size_t n, size_t k)
{
    size_t codes = 1;
    for (size_t i = 0; i < n; i++)
        codes *= n * k;
    bool *marks = calloc(codes, sizeof *marks);
    if (marks == NULL)
        abort();
    return marks;
}

/* Stands still where no flip leads on; a flip of 1 with k = 1 stands still too, and so is never made. */
static void flip_greedily(struct asked *at, const bool *visited)
{
    for (size_t j = 1; j <= at->n; j++) {
        struct asked next = *at;
        make_flip(&next, j);
        if (!visited[code_of(&next)]) {
            *at = next;
            return;
        }
    }
}

void greedy_round(const struct call *call, size_t n, size_t k,
                  void (*meet)(const struct call *call, const struct asked *met))
{
    bool *visited = unvisited(n, k);
    struct asked at = home(n, k);
    for (const uint64_t total = reference_round_total(n, k); at.argument < total; at.argument++) {
        meet(call, &at);
        visited[code_of(&at)] = true;
        flip_greedily(&at, visited);
    }
    free(visited);
}
