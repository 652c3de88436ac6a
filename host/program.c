/* Runs a program: see program.h. */
#define _POSIX_C_SOURCE 200809L /* fork, pipe, nanosleep */

#include "program.h"

#include <errno.h>
#include <fcntl.h>
#include <stdio.h>
#include <stdlib.h>
#include <string.h>
#include <sys/wait.h>
#include <time.h>
#include <unistd.h>

enum { SECONDS_MOST = 60, PAUSE_IN_NS = 1000000 };

static void die(const char *what)
{
    perror(what);
    exit(1);
}

struct text text_of(const char *string)
{
    return (struct text){strlen(string), string};
}

static pid_t forked(void)
{
    const pid_t process = fork();
    if (process < 0)
        die("fork");
    return process;
}

/* No end is left open in a program that is started, but for the standard input or output made of it. */
void make_pipe(int ends[2])
{
    if (pipe(ends) != 0)
        die("pipe");
    fcntl(ends[0], F_SETFD, FD_CLOEXEC);
    fcntl(ends[1], F_SETFD, FD_CLOEXEC);
}

/* A program that doesn't end is ended by the alarm, which outlives the exec. */
pid_t start_program(char *const words[], int input, int output, int errors)
{
    const pid_t program = forked();
    if (program == 0) {
        dup2(input, STDIN_FILENO);
        dup2(output, STDOUT_FILENO);
        dup2(errors, STDERR_FILENO);
        alarm(SECONDS_MOST);
        execv(words[0], words);
        perror(words[0]);
        _exit(127);
    }
    close(input);
    close(output);
    if (errors != STDERR_FILENO)
        close(errors);
    return program;
}

int status_of(pid_t program)
{
    int status;
    if (waitpid(program, &status, 0) != program)
        die("waitpid");
    return WIFEXITED(status) ? WEXITSTATUS(status) : BY_SIGNAL;
}

/* Where the program has stopped reading, the feeder ends by SIGPIPE. */
static void feed_all(struct text input, size_t piece, int pipe_in)
{
    const struct timespec pause = {.tv_nsec = PAUSE_IN_NS};
    for (size_t written = 0; written < input.length;) {
        const size_t left = input.length - written;
        const size_t asked = piece == 0 || piece > left ? left : piece;
        const ssize_t count = write(pipe_in, input.bytes + written, asked);
        if (count < 0)
            die("write");
        written += (size_t)count;
        if (piece != 0)
            nanosleep(&pause, NULL);
    }
    _exit(0);
}

int feed(struct text input, size_t piece, pid_t *feeder)
{
    int ends[2];
    make_pipe(ends);
    *feeder = forked();
    if (*feeder == 0) {
        close(ends[0]);
        feed_all(input, piece, ends[1]);
    }
    close(ends[1]);
    return ends[0];
}

/* A program that writes more than the room is stopped by SIGPIPE. A terminal ends by EIO. */
size_t read_to_end(int from, char *room, size_t most)
{
    size_t length = 0;
    ssize_t count;
    while (length < most && (count = read(from, room + length, most - length)) != 0) {
        if (count < 0 && errno == EIO)
            break;
        if (count < 0)
            die("read");
        length += (size_t)count;
    }
    close(from);
    return length;
}

struct run run_program(char *const words[], struct text input, size_t piece)
{
    static char output[OUTPUT_MOST], errors[ERRORS_MOST];
    pid_t feeder;
    const int fed = feed(input, piece, &feeder);
    int output_ends[2], errors_ends[2];
    make_pipe(output_ends);
    make_pipe(errors_ends);
    const pid_t program = start_program(words, fed, output_ends[1], errors_ends[1]);
    const size_t output_length = read_to_end(output_ends[0], output, sizeof output);
    const size_t errors_length = read_to_end(errors_ends[0], errors, sizeof errors);
    const int status = status_of(program);
    waitpid(feeder, NULL, 0);
    return (struct run){{output_length, output}, {errors_length, errors}, status};
}
