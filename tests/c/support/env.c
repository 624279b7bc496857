/* Shows that the calls need the floating-point state in which a C program starts on x86-64 Linux: rounding to nearest, subnormal numbers
 * kept; and that a job is saved as the same text in another one too. Each line has a result in that state and in another one; a result that
 * is not the expected one is told. Status: 0 all as expected, 1 one differs, 2 a fault.
 */
#include <limits.h>
#include <stddef.h>
#include <stdint.h>
#include <stdio.h>
#include <stdlib.h>
#include <string.h>
#include <xmmintrin.h>

#include "wavendiru.h"

/* Bits of MXCSR. */
#define EXCEPTIONS 0x003fu
#define DENORMALS_ARE_ZERO 0x0040u
#define ROUND_UPWARD 0x4000u
#define ROUNDING 0x6000u
#define FLUSH_TO_ZERO 0x8000u
#define OWED (ROUNDING | FLUSH_TO_ZERO | DENORMALS_ARE_ZERO) /* all 0 in the state that the caller owes */

#define EVERY_OTHER (ROUND_UPWARD | FLUSH_TO_ZERO | DENORMALS_ARE_ZERO)

#define LEAST 0x1p-1074 /* the least positive number, subnormal */

struct ratio_case {
    const char *state;
    unsigned int bits;
    const char *call;
    double value, maximum; /* from 0 */
    uint32_t expected, otherwise;
};

static const struct ratio_case ratios[] = {
    {"rounding upward", ROUND_UPWARD, "ratio(41; 0, 640)", 41, 640, 64062, 64063},
    {"denormals are zero", DENORMALS_ARE_ZERO, "ratio(0; 0, 2^-1074)", 0, LEAST, 0, 1000000},
    {"flush to zero", FLUSH_TO_ZERO, "ratio(2^-1074; 0, 2^-1073)", LEAST, 2 * LEAST, 500000, 0},
};

/* A bar over the cells 0, 41 and 640. */
static const char job[] =
    "limit start cells regions rules name\n"
    "100 0 3 3 1 t53\n"
    "row col wraps value\n"
    "0 0 0 n0000000000000000\n"
    "1 0 0 n4044800000000000\n"
    "2 0 0 n4084000000000000\n"
    "row col\n"
    "0 0\n"
    "1 0\n"
    "2 0\n"
    "top left bottom right priority stop imported rule p1 p2 p3 p4\n"
    "0 0 2 0 - 0 0 bar 00ff00 - - -\n";

/* Numbers whose bits another state could change: subnormal, -0, signalling NaN. */
static const char saved_job[] =
    "limit start cells regions rules name\n"
    "100 0 3 0 1 t53\n"
    "row col wraps value\n"
    "0 0 0 n0000000000000001\n"
    "1 0 0 n8000000000000000\n"
    "2 0 0 d7ff0000000000001\n"
    "row col\n"
    "top left bottom right priority stop imported rule p1 p2 p3 p4\n"
    "0 0 2 0 - 0 0 cellis 0 n0000000000000001 n800fffffffffffff ff0000\n";

static int differ;

/* Goes over to a state; returns the one before. */
static unsigned int enter(unsigned int bits)
{
    const unsigned int before = _mm_getcsr();
    _mm_setcsr((before & ~(OWED | EXCEPTIONS)) | bits);
    return before;
}

static unsigned long ratio_in(unsigned int bits, const struct ratio_case *c)
{
    const unsigned int before = enter(bits);
    const uint32_t ppm = wavendiru_ratio(c->value, 0, c->maximum);
    _mm_setcsr(before);
    return ppm;
}

/* The length of region 1's bar in the report on the job, in parts per million. */
static unsigned long bar_in(unsigned int bits)
{
    static const char bars[] = "region barrule ppm\n", line[] = "\n1 0 ";
    static char report[WAVENDIRU_LONGEST_REPORT + 1]; /* a 0 behind the longest one too */
    const unsigned int before = enter(bits);
    const char *at;
    wavendiru_whole_job((const uint8_t *)job, sizeof job - 1, (uint8_t *)report, WAVENDIRU_LONGEST_REPORT);
    _mm_setcsr(before);
    at = strstr(report, bars);
    at = at == NULL ? NULL : strstr(at, line);
    return at == NULL ? ULONG_MAX : strtoul(at + strlen(line), NULL, 10);
}

/* 1 if the job is saved as the same text. */
static unsigned long saved_in(unsigned int bits)
{
    static uint8_t saved[sizeof saved_job];
    const unsigned int before = enter(bits);
    const size_t length = wavendiru_save_job((const uint8_t *)saved_job, sizeof saved_job - 1, saved, sizeof saved);
    _mm_setcsr(before);
    return length == sizeof saved_job - 1 && memcmp(saved, saved_job, sizeof saved_job) == 0;
}

static void compare(const char *call, const char *state, unsigned long got, unsigned long expected)
{
    if (got == expected)
        return;
    differ++;
    printf("env: %s, %s: expected %lu, got %lu\n", call, state, expected, got);
}

static void tell(const char *call, const char *state, unsigned long got, unsigned long other, unsigned long expected, unsigned long otherwise)
{
    printf("%s: %lu; %s: %lu\n", call, got, state, other);
    compare(call, "as owed", got, expected);
    compare(call, state, other, otherwise);
}

int main(void)
{
    const unsigned int start = _mm_getcsr();
    if (start & OWED) {
        printf("env: the program does not start in the state that is owed (MXCSR %#x)\n", start);
        return 2;
    }
    for (size_t i = 0; i < sizeof ratios / sizeof ratios[0]; i++) {
        const struct ratio_case *c = &ratios[i];
        tell(c->call, c->state, ratio_in(0, c), ratio_in(c->bits, c), c->expected, c->otherwise);
    }
    tell("a whole job, the bar of 41 over 0, 41, 640", "rounding upward", bar_in(0), bar_in(ROUND_UPWARD), 64062, 64063);
    tell("a job saved as the same text", "all three", saved_in(0), saved_in(EVERY_OTHER), 1, 1);
    if (_mm_getcsr() & OWED) {
        printf("env: the state was not restored\n");
        return 2;
    }
    printf("env: 10 results, %d differ\n", differ);
    return differ != 0;
}
