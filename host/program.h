/* Runs a program from a test or a benchmark. A failure of the system ends the test program. */
#ifndef PROGRAM_H
#define PROGRAM_H

#include <stddef.h>
#include <sys/types.h>

/* Any bytes, which no NUL ends. */
struct text {
    size_t length;
    const char *bytes;
};

struct text text_of(const char *string);

/*
 * Starts a program by its words, the last of them NULL, with these files as standard input, output and error.
 * They are closed here, but for STDERR_FILENO.
 */
pid_t start_program(char *const words[], int input, int output, int errors);

/* Waits for the program and answers its exit status, or BY_SIGNAL where it didn't end by itself. */
enum { BY_SIGNAL = -1 };
int status_of(pid_t program);

/* A pipe, to read from its first end what is written into its second. */
void make_pipe(int ends[2]);

/* Reads a pipe or a terminal to its end or up to `most` bytes, closes it, and answers how many. */
size_t read_to_end(int from, char *room, size_t most);

/*
 * Starts a process that writes the input into a pipe, `piece` bytes at a time and with a pause between, or
 * all at once where `piece` is 0. Answers the end of the pipe to read from.
 */
int feed(struct text input, size_t piece, pid_t *feeder);

/*
 * What a program wrote, up to OUTPUT_MOST and ERRORS_MOST bytes, and its exit status; the next run writes
 * over it. What is written to standard error has to fit into a pipe.
 */
enum { OUTPUT_MOST = 1 << 24, ERRORS_MOST = 1 << 12 };
struct run {
    struct text output, errors;
    int status;
};
struct run run_program(char *const words[], struct text input, size_t piece);

#endif
