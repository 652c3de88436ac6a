/* The listing program as the tests run it: see listings.h. */
#include "listings.h"

#include "reference.h"
#include "reference_listing.h"

#include <inttypes.h>
#include <stdio.h>

void expect_in_pieces(struct text input, size_t piece, const char *known)
{
    static char *const words[] = {LISTING_WORDS};
    static char expected[LISTING_MOST];
    const struct run run = run_program(words, input, piece);
    const struct text by_reference = {reference_listing(input.bytes, input.length, expected), expected};
    fwrite(run.errors.bytes, 1, run.errors.length, stderr);
    expect_line(run.status == 0 ? "exit status 0" : "the program failed", "exit status 0");
    expect_text(input, run.output, by_reference);
    if (known != NULL)
        expect_text(input, run.output, text_of(known));
}

void expect_listing(struct text input, const char *known)
{
    expect_in_pieces(input, 0, known);
}

struct text line_of(uint64_t n, uint64_t k, uint64_t rank, uint64_t t)
{
    static char line[LINE_MOST];
    snprintf(line, sizeof line, "%" PRIu64 " %" PRIu64 " %" PRIu64 " %" PRIu64 "\n", n, k, rank, t);
    return text_of(line);
}

void begin_listing(struct listing *listing, size_t n, size_t k, uint64_t count)
{
    listing->n = n;
    listing->k = k;
    listing->count = count;
    listing->end = listing->text + sprintf(listing->text, "walk %zu %zu 0 %" PRIu64 "\n", n, k, count);
}

void put_arrangement(struct listing *listing, const struct asked *at, size_t flip)
{
    const uint8_t *modules = at->lent[MODULES].bytes, *settings = at->lent[SETTINGS].bytes;
    listing->end += sprintf(listing->end, "%zu %zu", at->argument, flip);
    for (size_t i = 0; i < at->n; i++)
        listing->end += sprintf(listing->end, " %u:%u", modules[i], settings[i]);
    listing->end += sprintf(listing->end, "\n");
}

void expect_written_listing(struct listing *listing)
{
    const uint64_t total = reference_round_total(listing->n, listing->k);
    sprintf(listing->end, "next %" PRIu64 "\n", listing->count % total);
    expect_listing(line_of(listing->n, listing->k, 0, listing->count), listing->text);
}
