/* The test of examples/handover.c: what it printed, in PRINTED, is held to the lines of EXPECTED. */
#include "test.h"

#include <stdio.h>
#include <stdlib.h>
#include <string.h>

enum { LINE_MOST = 200 };

static FILE *opened(const char *name)
{
    FILE *file = fopen(name, "r");
    if (file == NULL) {
        perror(name);
        exit(1);
    }
    return file;
}

/* The next line without its newline, or NULL at the end. */
static const char *next_line(FILE *file, char line[LINE_MOST])
{
    if (fgets(line, LINE_MOST, file) == NULL)
        return NULL;
    line[strcspn(line, "\n")] = '\0';
    return line;
}

static void same_lines(const struct call *call)
{
    char printed_line[LINE_MOST], expected_line[LINE_MOST];
    const char *came, *known;
    FILE *const printed = opened(PRINTED), *const expected = opened(EXPECTED);
    (void)call;
    do {
        came = next_line(printed, printed_line);
        known = next_line(expected, expected_line);
        expect_line(came, known);
    } while (came != NULL && known != NULL);
    fclose(printed);
    fclose(expected);
}

void handover_tests(void)
{
    static const struct call handover = {.name = "handover"};
    static const struct test tests[] = {
        {"the example prints what is expected", .once = same_lines},
    };
    run_tests(&handover, tests, COUNT_OF(tests));
}
