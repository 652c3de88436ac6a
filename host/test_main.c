/* Runs every test of the library. The last line says how many passed and how many failed. */
#include "test.h"

#include <stdio.h>

int main(void)
{
    /* by lines: where a call ends the program, the tests before it are on record */
    setvbuf(stdout, NULL, _IOLBF, BUFSIZ);
    sizes_tests();
    check_tests();
    flip_tests();
    rank_tests();
    look_tests();
    board_tests();
    pair_tests();
    book_tests();
    book_write_tests();
    handover_tests();
    station_tests();
    listing_tests();
    planner_tests();
    papers_tests();
    totality_tests();
    page_tests();
    return end_of_tests();
}
