/* The tests of limpet_check. */
#include "arrangements.h"
#include "calls.h"
#include "refusals.h"

static void named_arrangements(const struct call *call)
{
    static const struct {
        size_t k;
        const char *slots;
        unsigned number, place;
    } cases[] = {
        {2, "1:0 3:0 3:2", 6, 3},     {2, "3:0 3:0 4:0", 5, 3}, /* 01's two */
        {2, "1:0 2:0 2:0 1:0", 6, 3}, {2, "1:0 2:0 1:0 2:0", 6, 3},
        {2, "2:255 0:0", 5, 2},       {2, "255:255 0:9", 5, 1},
        {2, "2:1 1:255", 7, 2},       {8, "1:8 2:7", 7, 1},
        {1, "1:0", 0, 0},             {1, "1:1", 7, 1},
    };
    for (size_t i = 0; i < COUNT_OF(cases); i++) {
        const struct asked asked = written(cases[i].k, cases[i].slots);
        expect_refused(call, &asked, cases[i].number, cases[i].place);
    }
}

void check_tests(void)
{
    static const struct test tests[] = {
        {"the arrangements that 01 names, nested repeats, edges", .once = named_arrangements},
    };
    run_tests(&check_call, tests, COUNT_OF(tests));
    arrangement_tests(&check_call);
}
