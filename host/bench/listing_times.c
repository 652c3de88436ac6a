/*
 * Times the listing program beside plain_listing, in one run and on the same lines, from the start of the
 * program to its end, with what it prints thrown away.
 */
#define _POSIX_C_SOURCE 200809L /* clock_gettime, open */

#include "program.h"
#include "reference.h"

#include <fcntl.h>
#include <inttypes.h>
#include <stdio.h>
#include <stdlib.h>
#include <string.h>
#include <time.h>
#include <unistd.h>

enum { ROUNDS = 11, LISTED = 65536, BEFORE_END = 30000, LINE_MOST = 100 };
enum { PROGRAM, PLAIN, COLUMNS };

static char *const programs[COLUMNS][2] = {{LISTING, NULL}, {PLAIN_LISTING, NULL}};

static const struct {
    size_t n, k;
} sizes[] = {{20, 1}, {16, 2}, {11, 8}};

static double now_in_ns(void)
{
    struct timespec now;
    clock_gettime(CLOCK_MONOTONIC, &now);
    return (double)now.tv_sec * 1e9 + (double)now.tv_nsec;
}

static void end_with(const char *why)
{
    printf("%s\n", why);
    exit(1);
}

/* The ns of one arrangement. */
static double timed(char *const words[], struct text input)
{
    pid_t feeder;
    const int fed = feed(input, 0, &feeder), nowhere = open("/dev/null", O_WRONLY);
    status_of(feeder);
    const double began = now_in_ns();
    if (status_of(start_program(words, fed, nowhere, STDERR_FILENO)) != 0)
        end_with("a program failed");
    return (now_in_ns() - began) / LISTED;
}

static void expect_same_output(struct text input)
{
    const struct text listed = run_program(programs[PROGRAM], input, 0).output;
    char *const kept = malloc(listed.length + 1);
    if (kept == NULL)
        end_with("no memory");
    memcpy(kept, listed.bytes, listed.length);
    const struct text plain = run_program(programs[PLAIN], input, 0).output;
    if (plain.length != listed.length || memcmp(plain.bytes, kept, plain.length) != 0)
        end_with("the listing and the plain C differ");
    free(kept);
}

/* The longest listing, across the end of the round. */
static void time_size(size_t n, size_t k)
{
    char line[LINE_MOST];
    double best[COLUMNS];
    snprintf(line, sizeof line, "%zu %zu %" PRIu64 " %d\n", n, k, reference_round_total(n, k) - BEFORE_END,
             LISTED);
    expect_same_output(text_of(line));
    for (int round = 0; round < ROUNDS; round++)
        for (int i = 0; i < COLUMNS; i++) {
            const double took = timed(programs[i], text_of(line));
            best[i] = round == 0 || took < best[i] ? took : best[i];
        }
    printf("%-16s %3zu %3zu %9.1f %9.1f %19.2f\n", "listing", n, k, best[PROGRAM], best[PLAIN],
           best[PROGRAM] / best[PLAIN]);
}

int main(void)
{
    printf("\nlisting: ns per arrangement of %d, the best of %d runs of the whole program\n", LISTED, ROUNDS);
    printf("plain C  steps by counters, counts the rank up and prints with printf\n\n");
    printf("%-16s %3s %3s %9s %9s %19s\n", "program", "n", "k", "listing", "plain C", "listing / plain C");
    for (size_t i = 0; i < sizeof sizes / sizeof sizes[0]; i++)
        time_size(sizes[i].n, sizes[i].k);
    return 0;
}
