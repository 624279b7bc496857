/* Prints the report on a job text: whole_job [FILE], without FILE from standard input.
 *
 * Status: 0 if the job was answered; 1 if it was refused, which the report says and a line on standard error explains; 2 if the text could
 * not be read or the report not written. Standard output has the whole report or, at status 2, it may have nothing or a part.
 */
#include <errno.h>
#include <stdint.h>
#include <stdio.h>
#include <string.h>

#include "wavendiru.h"

/* One byte more than a job text may have, so that a longer one is seen and refused. */
static uint8_t text[WAVENDIRU_MAX_TEXT + 1];
static uint8_t report[WAVENDIRU_LONGEST_REPORT];

static int fault(const char *what, const char *name)
{
    fprintf(stderr, "whole_job: %s %s: %s\n", what, name, strerror(errno));
    return 2;
}

/* The number of a report: the digits after its first LF. */
static unsigned number_of(const uint8_t *bytes, size_t length)
{
    const uint8_t *end = bytes + length;
    const uint8_t *at = memchr(bytes, '\n', length);
    unsigned number = 0;
    if (at != NULL)
        for (at++; at < end && *at >= '0' && *at <= '9'; at++)
            number = number * 10 + (unsigned)(*at - '0');
    return number;
}

static const char *meaning(unsigned number)
{
    switch (number) {
    case WAVENDIRU_TOO_MANY: return "too many cells, regions or rules";
    case WAVENDIRU_BAD_CELL: return "a cell or region off the grid";
    case WAVENDIRU_NOT_RISING: return "cells or regions not in rising order";
    case WAVENDIRU_OVER_LIMIT: return "more evaluations than the limit";
    case WAVENDIRU_OVER_COUNTER: return "more evaluations than the counter holds";
    case WAVENDIRU_TOO_MANY_MARKS: return "more than 1,024 marks";
    case WAVENDIRU_LONG_TEXT: return "a job text over 65,536 bytes";
    case WAVENDIRU_BAD_LINE: return "a line is malformed, missing or extra";
    default: return "see wavendiru.h";
    }
}

int main(int argc, char **argv)
{
    const char *name = argc > 1 ? argv[1] : "standard input";
    FILE *in = stdin;
    size_t text_len, length;
    unsigned number;

    if (argc > 2) {
        fprintf(stderr, "usage: whole_job [FILE]\n");
        return 2;
    }
    if (argc > 1 && (in = fopen(name, "rb")) == NULL)
        return fault("cannot open", name);
    text_len = fread(text, 1, sizeof text, in);
    if (ferror(in))
        return fault("cannot read", name);
    if (in != stdin)
        fclose(in);

    length = wavendiru_whole_job(text, text_len, report, sizeof report);
    if (length == 0) {
        /* never with this buffer, but a caller with a shorter one has to ask */
        fprintf(stderr, "whole_job: the report is longer than %zu bytes\n", sizeof report);
        return 2;
    }
    if (fwrite(report, 1, length, stdout) != length || fflush(stdout) != 0)
        return fault("cannot write to", "standard output");

    number = number_of(report, length);
    if (number == WAVENDIRU_ANSWERED)
        return 0;
    fprintf(stderr, "whole_job: refused with %u: %s\n", number, meaning(number));
    return 1;
}
