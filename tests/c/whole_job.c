/* Calls the whole job through the header, on texts and report buffers of every awkward length. Prints a line for each call: the case, the
 * two lengths, what was returned, the values and a checksum of the report, what the bytes after it hold, and whether all else was kept.
 */
#define CALLED wavendiru_whole_job
#define LENT "report"
#include "support/texts.h"

#define MOST_REPORT (WAVENDIRU_LONGEST_REPORT + 1000)

/* A job with the longest report: a full bar at each of 1,024 regions by a rule of two digits, and two digits more of deferred and of
 * simplified rules. The bar's rule comes first and stops every region. */
static void longest(void)
{
    start();
    add("limit start cells regions rules name\n18446744073709551615 18446744073709500000 1024 1024 64 t\nrow col wraps value\n");
    for (int i = 0; i < 1024; i++)
        add("%d 0 0 n3ff0000000000000\n", i);
    add("row col\n");
    for (int i = 0; i < 1024; i++)
        add("%d 0\n", i);
    add("top left bottom right priority stop imported rule p1 p2 p3 p4\n");
    for (int i = 0; i < 10; i++)
        add("0 0 0 0 - 0 0 bar 00ff00 - - -\n");
    add("0 0 1023 0 0 1 0 bar 00ff00 - - -\n");
    for (int i = 11; i < 64; i++)
        add("0 0 0 0 - 0 0 expr 0 u u 00ff00\n");
}

/* Bars and scales of every shape that there is: over 1, 1, 2 and over -F, -F, F, F being the largest number. A fill has none. */
static void every_shape(void)
{
    start();
    add("limit start cells regions rules name\n1000 0 6 6 10 t53\nrow col wraps value\n");
    add("0 0 0 n3ff0000000000000\n1 0 0 n3ff0000000000000\n2 0 0 n4000000000000000\n");
    add("3 0 0 nffefffffffffffff\n4 0 0 nffefffffffffffff\n5 0 0 n7fefffffffffffff\n");
    add("row col\n0 0\n1 0\n2 0\n3 0\n4 0\n5 0\n");
    add("top left bottom right priority stop imported rule p1 p2 p3 p4\n");
    add("0 0 1 0 - 0 0 bar 00ff00 - - -\n1 0 2 0 - 0 1 bar 00ff00 - - -\n4 0 5 0 - 0 0 bar 00ff00 - - -\n");
    add("0 0 1 0 - 0 0 scale2 ff0000 0000ff - -\n1 0 2 0 - 0 0 scale2 ff0000 0000ff - -\n4 0 5 0 - 0 1 scale2 ff0000 0000ff - -\n");
    add("0 0 2 0 - 0 0 scale3 ff0000 00ff00 0000ff -\n3 0 5 0 - 0 0 scale3 ff0000 00ff00 0000ff -\n");
    add("3 0 5 0 - 0 1 scale3 ff0000 00ff00 0000ff -\n0 0 5 0 - 0 1 cellis 6 n4000000000000000 - ff0000\n");
}

static void lengths_of_a_report(void)
{
    static const size_t lengths[] = {0, 1, 65, 204, 205, 206, 207, 1000, WAVENDIRU_LONGEST_REPORT, MOST_REPORT};
    worked("100");
    call("worked", 0, 1);
    for (size_t i = 0; i < sizeof lengths / sizeof lengths[0]; i++)
        call("worked", lengths[i], 0);
    longest();
    call("longest", WAVENDIRU_LONGEST_REPORT - 1, 0);
    call("longest", WAVENDIRU_LONGEST_REPORT, 0);
    call("longest", WAVENDIRU_LONGEST_REPORT + 1, 0);
    every_shape();
    call("every shape", WAVENDIRU_LONGEST_REPORT, 0);
}

static void refusals(void)
{
    worked("11");
    call("worked, limit 11", 212, 0);
    worked("10");
    call("worked, limit 10", 69, 0);
    call("worked, limit 10", 68, 0);
    call("worked, limit 10", 67, 0);
    start();
    add("limit start cells regions rules name\n100 7 1025 0 0 t53\n");
    call("1,025 cells", 200, 0);
    two_regions("0 0\n1048576 0\n");
    call("off the grid", 200, 0);
    two_regions("0 1\n0 1\n");
    call("a region twice", 200, 0);
    counter_at_its_end();
    call("counter at its end", 200, 0);
    always_true(16);
    call("1,024 marks", WAVENDIRU_LONGEST_REPORT, 0);
    always_true(17);
    call("1,088 marks", WAVENDIRU_LONGEST_REPORT, 0);
}

int main(void)
{
    lengths_of_a_report();
    texts_of_any_length();
    refusals();
    return 0;
}
