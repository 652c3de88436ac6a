/*
 * The tests of what a C user is told. The library is installed, and the first program of a page is taken from
 * it and built against the installed copy; and each command that the page prints with it is run. So is the
 * program that writes a book, which has no command; and so are ./walk and ./book, as README.md prints them.
 */
#include "books.h"

#include <stdarg.h>
#include <stdio.h>
#include <stdlib.h>
#include <string.h>

enum { TEXT_MOST = 4000, PAGE_MOST = 1 << 17 };

#define INSTALLED FOLDER "/installed"
#define STAGED FOLDER "/staged"
#define SCRATCH FOLDER "/scratch"

/* A make that a test runs takes nothing over from the make that runs the tests. */
#define ALONE "unset MAKEFLAGS MFLAGS MAKELEVEL; "

/* Runs a command by the shell. */
__attribute__((format(printf, 1, 2))) static struct run shell(const char *format, ...)
{
    static char command[TEXT_MOST];
    char *const words[] = {"/bin/sh", "-c", command, NULL};
    va_list values;
    va_start(values, format);
    vsnprintf(command, sizeof command, format, values);
    va_end(values);
    return run_program(words, text_of(""), 0);
}

/* Holds a run that has to succeed to what it has to print. What it says of errors is passed on. */
static void expect_printed(const char *what, struct run run, struct text known)
{
    char line[TEXT_MOST];
    fwrite(run.errors.bytes, 1, run.errors.length, stderr);
    snprintf(line, sizeof line, "%s: exit status %d", what, run.status);
    expect_line(run.status == 0 ? NULL : line, NULL);
    expect_text(text_of(what), run.output, known);
}

static void expect_silent(const char *what, struct run run)
{
    expect_printed(what, run, text_of(""));
}

static struct run install(const char *destination, const char *prefix)
{
    return shell(ALONE "%s -s install LIMPET='%s' DESTDIR='%s' PREFIX='%s'", MAKE_COMMAND, LIMPET_FILE,
                 destination, prefix);
}

/* The flags of an installed copy, as its limpet.pc has them, and a newline. Needs no pkg-config. */
static struct run flags_of(const char *folder)
{
    return shell("pc='%s/lib/pkgconfig/limpet.pc'; eval \"$(grep '^[a-z]*=' \"$pc\")\"; "
                 "eval echo $(sed -n 's/^Cflags: //p; s/^Libs: //p' \"$pc\")",
                 folder);
}

/* Header and archive are the repository's, and limpet.pc leads to the prefix. */
static void expect_installed(const char *folder, const char *prefix)
{
    char known[TEXT_MOST];
    snprintf(known, sizeof known, "-I%s/include -L%s/lib -llimpet\n", prefix, prefix);
    expect_silent("the header", shell("cmp limpet.h '%s/include/limpet.h'", folder));
    expect_silent("the archive", shell("cmp '%s' '%s/lib/liblimpet.a'", LIMPET_FILE, folder));
    expect_printed("limpet.pc", flags_of(folder), text_of(known));
}

static void installs(const struct call *call)
{
    (void)call;
    expect_silent("a new folder", shell("rm -rf '%s' && mkdir -p '%s'", FOLDER, SCRATCH));
    expect_silent("install", install("", INSTALLED));
    expect_installed(INSTALLED, INSTALLED);
    expect_silent("install with DESTDIR", install(STAGED, "/opt/limpet"));
    expect_installed(STAGED "/opt/limpet", "/opt/limpet");
}

static void relative_prefix(const struct call *call)
{
    (void)call;
    expect_line(install(STAGED "/", "relative").status == 0 ? "installed" : "refused", "refused");
    expect_silent("nothing there", shell("test ! -e '%s/relative'", STAGED));
}

static bool has_pkg_config(void)
{
    return shell("command -v pkg-config").status == 0;
}

/* Where there is a pkg-config, it finds what a plain reading of limpet.pc finds. */
static void by_pkg_config(const struct call *call)
{
    const char *const path = INSTALLED "/lib/pkgconfig";
    (void)call;
    if (!has_pkg_config())
        return;
    expect_silent("its flags", shell("found=$(PKG_CONFIG_PATH='%s' pkg-config --cflags --libs limpet); "
                                     "test \"$(echo $found)\" = '-I%s/include -L%s/lib -llimpet'",
                                     path, INSTALLED, INSTALLED));
    expect_silent("its version", shell("found=$(PKG_CONFIG_PATH='%s' pkg-config --modversion limpet); "
                                       "grep -q \"^Version: $found$\" '%s/limpet.pc'",
                                       path, path));
}

/* The page from this text on, up to the heading behind the first program there. */
static const char *page_from(const struct call *call, const char *text)
{
    static char page[PAGE_MOST];
    char name[TEXT_MOST];
    snprintf(name, sizeof name, "../%s", call->name);
    FILE *const file = fopen(name, "r");
    const size_t length = file == NULL ? 0 : fread(page, 1, sizeof page - 1, file);
    page[length] = '\0';
    char *const start = strstr(page, text);
    if (file == NULL || fclose(file) != 0 || start == NULL || strstr(start, "\n```c\n") == NULL) {
        printf("no program in %s\n", name);
        exit(1);
    }
    char *const heading = strstr(strstr(start, "\n```c\n"), "\n## ");
    if (heading != NULL)
        *heading = '\0';
    return start;
}

static const char *page_of(const struct call *call)
{
    return page_from(call, "");
}

/* The first block behind this place that begins with the fence; empty where there is none. */
static struct text block_behind(const char *place, const char *fence)
{
    const char *const found = strstr(place, fence);
    if (found == NULL)
        return text_of("");
    const char *const first = found + strlen(fence), *const end = strstr(first, "\n```\n");
    return (struct text){end == NULL ? strlen(first) : (size_t)(end + 1 - first), first};
}

/* The place behind a block and its fence. */
static const char *behind(struct text block)
{
    return block.bytes + block.length + strlen("```");
}

static struct text program_of(const char *page)
{
    return block_behind(page, "\n```c\n");
}

static struct text printed_by(struct text program)
{
    return block_behind(behind(program), "\n```\n");
}

static void save_program(struct text program)
{
    FILE *const file = fopen(SCRATCH "/first.c", "w");
    if (file == NULL || fwrite(program.bytes, 1, program.length, file) != program.length ||
        fclose(file) != 0) {
        perror(SCRATCH "/first.c");
        exit(1);
    }
}

static void expect_built_strictly(struct text program)
{
    char flags[TEXT_MOST];
    const struct text found = flags_of(INSTALLED).output;
    snprintf(flags, sizeof flags, "%.*s", (int)found.length, found.bytes);
    save_program(program);
    expect_silent("build", shell("cd '%s' && rm -f strict && %s first.c -o strict %s", SCRATCH, COMPILER,
                                 flags));
    expect_printed("run", shell("cd '%s' && %s ./strict", SCRATCH, EMULATOR), printed_by(program));
}

static void strictly(const struct call *call)
{
    expect_built_strictly(program_of(page_of(call)));
}

/* What it hands on is the book that plain C makes. */
static void book_program(const struct call *call)
{
    struct book book = {.entries = 2, .stretches = {{3, 2, 0, 24}, {3, 2, 24, 24}}};
    write_book(&book);
    expect_silent("no book yet", shell("rm -f '%s/two.book'", SCRATCH));
    expect_built_strictly(program_of(page_from(call, "\n## Books\n")));
    expect_printed("its book", shell("cat '%s/two.book'", SCRATCH),
                   (struct text){book.length, (const char *)book.bytes});
}

/* Runs a block of commands where host/ and target/ are, with a home of its own; make may print before. */
static void expect_block(struct text block, struct text printed)
{
    struct run run = shell(ALONE "ln -sfn \"$PWD\" '%s/host'; ln -sfn \"$(cd ../target && pwd)\" '%s/target'; "
                                 "cd '%s' && rm -f first && export HOME=\"$PWD\" && %.*s",
                           SCRATCH, SCRATCH, SCRATCH, (int)block.length, block.bytes);
    const size_t before = run.output.length > printed.length ? run.output.length - printed.length : 0;
    run.output.bytes += before;
    run.output.length -= before;
    expect_printed("a printed command", run, printed);
}

/* The archive is linked by the processor's own compiler, so only on x86-64; and pkg-config may be missing. */
static void as_printed(const struct call *call)
{
    const struct text program = program_of(page_of(call)), printed = printed_by(program);
    struct text block = block_behind(behind(printed), "\n```sh\n");
    const bool is_skipped = strlen(EMULATOR) > 0;
    expect_line(block.length > 0 ? NULL : "no command beside the program", NULL);
    save_program(program);
    for (; block.length > 0 && !is_skipped; block = block_behind(behind(block), "\n```sh\n")) {
        const char *const named = strstr(block.bytes, "pkg-config");
        if (named == NULL || named > behind(block) || has_pkg_config())
            expect_block(block, printed);
    }
}

/* A folder that has the scripts and the programs, and no source that is newer than they are. */
static void lay_scripts(void)
{
    expect_silent("the scripts", shell("mkdir -p '%s/top/crates' && cp ../walk ../book ../.program '%s/top' && "
                                       "ln -sfn \"$(cd ../target && pwd)\" '%s/top/target' && "
                                       "touch -d @0 '%s/top/crates' '%s/top/crates.txt'",
                                       SCRATCH, SCRATCH, SCRATCH, SCRATCH, SCRATCH));
}

/* Each block that begins with a command, behind a dollar sign, goes on with what it prints. */
static void with_output(const struct call *call)
{
    const char *const fence = "\n```\n$ ";
    struct text block = block_behind(page_of(call), fence);
    expect_line(block.length > 0 ? NULL : "no command", NULL);
    lay_scripts();
    for (; block.length > 0; block = block_behind(behind(block), fence)) {
        const size_t line = strcspn(block.bytes, "\n") + 1;
        const struct text printed = {block.length - line, block.bytes + line};
        expect_printed("a command with its output",
                       shell("cd '%s/top' && %.*s", SCRATCH, (int)line, block.bytes), printed);
    }
}

void page_tests(void)
{
    static const struct call install_call = {.name = "install"};
    static const struct call pages[] = {{.name = "docs/C-HOST.md"}, {.name = "README.md"}};
    static const struct test of_install[] = {
        {"header, archive and limpet.pc, with and without DESTDIR", .once = installs},
        {"a PREFIX that isn't absolute is refused", .once = relative_prefix},
        {"pkg-config, where there is one, finds them", .once = by_pkg_config},
    };
    static const struct test of_page[] = {
        {"the first program, built strictly on what is installed, prints as said", .once = strictly},
        {"the commands beside it build and run it", .once = as_printed},
    };
    static const struct test of_scripts[] = {
        {"./walk and ./book print as said", .once = with_output},
    };
    static const struct test of_books[] = {
        {"the program that writes a book, built strictly, writes and prints as said", .once = book_program},
    };
    run_tests(&install_call, of_install, COUNT_OF(of_install));
    for (size_t i = 0; i < COUNT_OF(pages); i++)
        run_tests(&pages[i], of_page, COUNT_OF(of_page));
    run_tests(&pages[0], of_books, COUNT_OF(of_books));
    run_tests(&pages[1], of_scripts, COUNT_OF(of_scripts));
}
