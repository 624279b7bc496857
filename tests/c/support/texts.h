/* Texts and calls for the tests of the calls from text to text. CALLED is the call and LENT what its lent bytes are named; both are defined
 * ahead of this file.
 */
#include <inttypes.h>
#include <stdarg.h>
#include <stdint.h>
#include <stdio.h>
#include <stdlib.h>
#include <string.h>

#include "wavendiru.h"

#define GUARD 67      /* bytes around each buffer, odd so that the buffers are not aligned */
#define KEPT 0xa5     /* what the guards hold */
#define FORMER 0xff   /* what the lent bytes hold before the call */
#define MOST_TEXT (WAVENDIRU_MAX_TEXT + 1)
#define MOST_LENT (WAVENDIRU_MAX_TEXT + 1000)

static uint8_t text_room[GUARD + MOST_TEXT + GUARD];
static uint8_t lent_room[GUARD + MOST_LENT + GUARD];

/* The text that is being made. */
static char job[MOST_TEXT + 1];
static size_t job_len;

static void start(void)
{
    job_len = 0;
}

static void add(const char *form, ...)
{
    va_list arguments;
    int added;
    va_start(arguments, form);
    added = vsnprintf(job + job_len, sizeof job - job_len, form, arguments);
    va_end(arguments);
    if (added < 0 || (size_t)added >= sizeof job - job_len) {
        fprintf(stderr, "tests/c: a case is longer than its buffer\n");
        exit(2);
    }
    job_len += (size_t)added;
}

static void fill(int byte, size_t length)
{
    memset(job, byte, length);
    job_len = length;
}

/* How many of the first bytes are the given one. */
static size_t run_of(const uint8_t *bytes, size_t length, int byte)
{
    size_t i = 0;
    while (i < length && bytes[i] == byte)
        i++;
    return i;
}

/* FNV-1a */
static uint64_t checksum(const uint8_t *bytes, size_t length)
{
    uint64_t sum = UINT64_C(0xcbf29ce484222325);
    for (size_t i = 0; i < length; i++)
        sum = (sum ^ bytes[i]) * UINT64_C(0x100000001b3);
    return sum;
}

static void print_values(const uint8_t *report, size_t length)
{
    const uint8_t *at = memchr(report, '\n', length);
    const uint8_t *end = at == NULL ? NULL : memchr(at + 1, '\n', (size_t)(report + length - at - 1));
    if (end == NULL)
        printf("NO SECOND LINE");
    else
        printf("%.*s", (int)(end - at - 1), (const char *)(at + 1));
}

/* What was written: the same text, or the values of a report; and its checksum. */
static void print_written(const uint8_t *lent, size_t length)
{
    printf(" (");
    if (length == job_len && memcmp(lent, job, length) == 0)
        printf("the same text");
    else
        print_values(lent, length);
    printf("; %016" PRIx64 ")", checksum(lent, length));
}

/* Calls with the text that was made and a buffer of lent_len bytes; null: with null pointers where a length is 0. */
static void call(const char *name, size_t lent_len, int null)
{
    uint8_t *text = text_room + GUARD;
    uint8_t *lent = lent_room + GUARD;
    size_t returned, zeros, past;

    memset(text_room, KEPT, sizeof text_room);
    memset(lent_room, KEPT, sizeof lent_room);
    memcpy(text, job, job_len);
    memset(lent, FORMER, lent_len);
    returned = CALLED(null && job_len == 0 ? NULL : text, job_len, null && lent_len == 0 ? NULL : lent, lent_len);

    printf("%s, text %zu, " LENT " %zu: returned %zu", name, job_len, lent_len, returned);
    if (returned > lent_len) {
        printf(", MORE THAN LENT\n");
        return;
    }
    if (returned > 0)
        print_written(lent, returned);
    past = lent_len - returned;
    zeros = run_of(lent + returned, past, 0);
    printf(", zeros %zu%s", zeros, zeros == past ? "" : " AND THEN OTHERS");
    printf(", text %s", memcmp(text, job, job_len) == 0 ? "kept" : "CHANGED");
    printf(", guards %s\n",
           run_of(text_room, GUARD, KEPT) == GUARD && run_of(lent_room, GUARD, KEPT) == GUARD
                   && run_of(text + job_len, sizeof text_room - GUARD - job_len, KEPT) == sizeof text_room - GUARD - job_len
                   && run_of(lent + lent_len, sizeof lent_room - GUARD - lent_len, KEPT) == sizeof lent_room - GUARD - lent_len
               ? "kept"
               : "CHANGED");
}

/* The worked example of document 01. */
static void worked(const char *limit)
{
    start();
    add("limit start cells regions rules name\n%s 0 3 3 2 t53\n", limit);
    add("row col wraps value\n0 0 0 n3ff0000000000000\n1 0 0 n4000000000000000\n2 0 0 n4008000000000000\n");
    add("row col\n0 0\n1 0\n2 0\n");
    add("top left bottom right priority stop imported rule p1 p2 p3 p4\n");
    add("0 0 2 0 - 0 0 bar 00ff00 - - -\n0 0 2 0 0 1 0 mean above - - ff0000\n");
}

/* No cells, two regions on the given lines, no rules; the start is 7. */
static void two_regions(const char *lines)
{
    start();
    add("limit start cells regions rules name\n100 7 0 2 0 t53\nrow col wraps value\nrow col\n%s", lines);
    add("top left bottom right priority stop imported rule p1 p2 p3 p4\n");
}

/* A rule that charges once, and a counter that cannot be raised. */
static void counter_at_its_end(void)
{
    start();
    add("limit start cells regions rules name\n100 18446744073709551615 0 1 1 t53\nrow col wraps value\nrow col\n0 0\n");
    add("top left bottom right priority stop imported rule p1 p2 p3 p4\n0 0 0 0 - 0 0 expr 0 n0000000000000000 n0000000000000000 0000ff\n");
}

/* 64 rules that are true of every region, blank as it is. */
static void always_true(int regions)
{
    start();
    add("limit start cells regions rules name\n100000 0 0 %d 64 t\nrow col wraps value\nrow col\n", regions);
    for (int i = 0; i < regions; i++)
        add("%d 0\n", i);
    add("top left bottom right priority stop imported rule p1 p2 p3 p4\n");
    for (int i = 0; i < 64; i++)
        add("0 0 99 0 - 0 0 expr 0 n0000000000000000 n0000000000000000 0000ff\n");
}

/* Texts of any length, none of which is read. */
static void texts_of_any_length(void)
{
    start();
    call("empty", 200, 0);
    call("empty, null", 200, 1);
    call("empty, both null", 0, 1);
    fill('\n', WAVENDIRU_MAX_TEXT);
    call("lines without end", 200, 0);
    fill('\n', WAVENDIRU_MAX_TEXT + 1);
    call("a byte too long", 200, 0);
    worked("100");
    memset(job + job_len, '\n', sizeof job - job_len);
    job_len = WAVENDIRU_MAX_TEXT + 1;
    call("worked, a byte too long", 200, 0);
    job_len = WAVENDIRU_MAX_TEXT;
    call("worked, lines too many", 200, 0);
    worked("100");
    add("\n");
    call("worked, a line too many", 200, 0);
    worked("100");
    job_len--;
    call("worked, without its last LF", 200, 0);
    worked("100");
    memmove(job + 50, job, job_len);
    job_len += 50;
    call("worked, begun twice", 200, 0);
    worked("100");
    job[38] = '\0';
    call("worked, NUL", 200, 0);
    worked("100");
    job[job_len - 1] = '\r';
    call("worked, CR", 200, 0);
    fill(0xff, 300);
    call("not UTF-8", 200, 0);
}
