/* Calls the saving of a job through the header, on texts and buffers of every awkward length. Prints a line for each call: the case, the
 * two lengths, what was returned, whether that is the same text or else the values of the report, a checksum, what the bytes after it hold,
 * and whether all else was kept.
 */
#define CALLED wavendiru_save_job
#define LENT "saved"
#include "support/texts.h"

/* A job of so many bytes, most of them its name: an even number with a limit of one digit, an odd one with two. */
static void long_name(const char *limit, size_t length)
{
    static const char rest[] = "\nrow col wraps value\nrow col\ntop left bottom right priority stop imported rule p1 p2 p3 p4\n";
    start();
    add("limit start cells regions rules name\n%s 18446744073709551615 0 0 0 t", limit);
    while (job_len + sizeof rest - 1 < length)
        add("a5");
    add("%s", rest);
}

/* Values and operands that must come back bit for bit: each kind of a value, signalling NaN, -0, the least number, texts that are empty or
 * not UTF-8, references with and without a name; and each kind of a rule. */
static void every_kind(void)
{
    start();
    add("limit start cells regions rules name\n18446744073709551615 0 9 2 12 tff00\nrow col wraps value\n");
    add("0 0 255 n7ff0000000000001\n0 1 0 dfff8000000000000\n0 2 1 n8000000000000000\n0 3 0 d0000000000000001\n");
    add("0 16383 0 t\n1 0 0 tff0a20\n2 0 0 b0\n2 1 0 b1\n1048575 16383 64 e\n");
    add("row col\n0 0\n1048575 16383\n");
    add("top left bottom right priority stop imported rule p1 p2 p3 p4\n");
    add("4294967295 65535 0 0 4294967295 1 1 cellis 0 n8000000000000000 u 00000a\n");
    add("0 0 0 0 0 0 1 cellis 7 r4294967295,65535,3,t - ffffff\n0 0 0 0 - 1 0 cellis 1 u r0,0,0,- a0b0c0\n");
    add("0 0 2 0 - 0 0 scale2 ff0000 0000ff - -\n0 0 2 0 - 0 0 scale3 ff0000 00ff00 0000ff -\n0 0 2 0 - 0 0 bar 00ff00 - - -\n");
    add("0 0 2 0 - 0 0 rank 4294967295 bottom percent 000000\n0 0 2 0 - 0 0 rank 0 top count 000000\n");
    add("0 0 2 0 - 0 0 mean below - - ff0000\n0 0 2 0 - 0 0 same unique - - ff0000\n0 0 2 0 - 0 0 same duplicate - - ff0000\n");
    add("0 0 2 0 - 0 0 expr 5 r1,2,1,t53ff r1,2,2,- ff0000\n");
}

static void lengths_of_a_text(void)
{
    static const size_t lengths[] = {0, 1, 68, 69, 70, 293, 294, 295, 1000, WAVENDIRU_MAX_TEXT, MOST_LENT};
    worked("100");
    call("worked", 0, 1);
    for (size_t i = 0; i < sizeof lengths / sizeof lengths[0]; i++)
        call("worked", lengths[i], 0);
    every_kind();
    call("every kind", job_len - 1, 0);
    call("every kind", job_len, 0);
    call("every kind", WAVENDIRU_MAX_TEXT, 0);
}

/* The longest text, the longest report on one, and a text that is too long by its name alone. */
static void longest_texts(void)
{
    static const size_t lengths[] = {89, 90, 91, WAVENDIRU_MAX_TEXT - 1, WAVENDIRU_MAX_TEXT, WAVENDIRU_MAX_TEXT + 1};
    long_name("0", WAVENDIRU_MAX_TEXT);
    for (size_t i = 0; i < sizeof lengths / sizeof lengths[0]; i++)
        call("longest", lengths[i], 0);
    long_name("10", WAVENDIRU_MAX_TEXT + 1);
    call("longer than a text may be", MOST_LENT, 0);
}

static void counts(const char *name, const char *values)
{
    start();
    add("limit start cells regions rules name\n100 7 %s t53\n", values);
    call(name, 200, 0);
}

static void refusals(void)
{
    counts("1,025 cells", "1025 0 0");
    counts("1,025 regions", "0 1025 0");
    counts("65 rules", "0 0 65");
    two_regions("0 0\n1048576 0\n");
    call("off the grid", 200, 0);
    two_regions("0 16384\n0 0\n");
    call("off the grid and not rising", 200, 0);
    two_regions("0 1\n0 1\n");
    call("a region twice", 67, 0);
    call("a region twice", 66, 0);
    call("a region twice", 65, 0);
    call("a region twice", job_len, 0);
}

/* What only deciding turns away is saved. */
static void not_decided(void)
{
    worked("10");
    call("worked, limit 10", job_len, 0);
    counter_at_its_end();
    call("counter at its end", job_len, 0);
    call("counter at its end", job_len - 1, 0);
    always_true(17);
    call("1,088 marks", job_len, 0);
}

int main(void)
{
    lengths_of_a_text();
    longest_texts();
    texts_of_any_length();
    refusals();
    not_decided();
    return 0;
}
