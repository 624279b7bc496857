/* Calls the ratio and the channel through the header. Prints a line for each call: its arguments, doubles by their bits, and its result. */
#include <inttypes.h>
#include <stddef.h>
#include <stdint.h>
#include <stdio.h>
#include <string.h>

#include "wavendiru.h"

#define ZERO 0x0000000000000000
#define MINUS_ZERO 0x8000000000000000
#define LEAST 0x0000000000000001      /* 2^-1074, subnormal */
#define SUBNORMAL 0x000fffffffffffff  /* the largest subnormal */
#define NORMAL 0x0010000000000000     /* 2^-1022 */
#define BELOW_ONE 0x3fefffffffffffff
#define ONE 0x3ff0000000000000
#define ABOVE_ONE 0x3ff0000000000001
#define TWO 0x4000000000000000
#define THREE 0x4008000000000000
#define FIVE 0x4014000000000000
#define SEVEN 0x401c000000000000
#define MINUS_ONE 0xbff0000000000000
#define TWO_MILLION 0x413e848000000000
#define LARGEST 0x7fefffffffffffff
#define MINUS_LARGEST 0xffefffffffffffff
#define INFINITE 0x7ff0000000000000
#define MINUS_INFINITE 0xfff0000000000000
#define QUIET 0x7ff8000000000000      /* not-a-number */
#define SIGNALLING 0x7ff0000000000001 /* not-a-number */
#define MINUS_NAN 0xffffffffffffffff  /* not-a-number */

struct ratio_case {
    uint64_t value, minimum, maximum;
};

static const struct ratio_case ratios[] = {
    /* P1 to P4 of document 01 */
    {TWO, ONE, THREE},
    {FIVE, FIVE, FIVE},
    {TWO, ZERO, THREE},
    {LARGEST, MINUS_LARGEST, LARGEST},
    /* ends and outside */
    {ONE, ONE, THREE},
    {THREE, ONE, THREE},
    {ZERO, ONE, THREE},
    {FIVE, ONE, THREE},
    {MINUS_ONE, MINUS_ONE, ONE},
    {ZERO, MINUS_ONE, ONE},
    {BELOW_ONE, ZERO, ONE},
    {ABOVE_ONE, ZERO, ONE},
    {ONE, ZERO, THREE},
    {ONE, ZERO, SEVEN},
    {FIVE, ZERO, SEVEN},
    /* flat and turned round */
    {TWO, THREE, ONE},
    {ZERO, ZERO, MINUS_ZERO},
    {ZERO, MINUS_ZERO, ZERO},
    {QUIET, FIVE, FIVE},
    {ONE, INFINITE, INFINITE},
    {ONE, INFINITE, MINUS_INFINITE},
    {QUIET, THREE, ONE},
    /* halves: 1/2, 3/2 and 5/2 millionths, and 499,999.5 */
    {ONE, ZERO, TWO_MILLION},
    {THREE, ZERO, TWO_MILLION},
    {FIVE, ZERO, TWO_MILLION},
    {0x412e847e00000000, ZERO, TWO_MILLION},
    /* products just below 1/2 and at it, just below 3/2 and at it */
    {0x3ea0c6f7a0b5ed8c, ZERO, ONE},
    {0x3ea0c6f7a0b5ed8d, ZERO, ONE},
    {0x3eb92a737110e453, ZERO, ONE},
    {0x3eb92a737110e454, ZERO, ONE},
    /* -0 */
    {MINUS_ZERO, ZERO, ONE},
    {MINUS_ZERO, MINUS_ZERO, ONE},
    {ZERO, MINUS_ONE, MINUS_ZERO},
    /* subnormal numbers */
    {LEAST, ZERO, LEAST},
    {LEAST, ZERO, SUBNORMAL},
    {LEAST, ZERO, THREE},
    {LEAST, LEAST, NORMAL},
    {SUBNORMAL, ZERO, NORMAL},
    {LEAST, ZERO, 0x0000000000000002},
    {0x0000000000000002, ZERO, 0x0000000000000003},
    /* the largest finite numbers, where a difference overflows */
    {ZERO, MINUS_LARGEST, LARGEST},
    {MINUS_LARGEST, MINUS_LARGEST, LARGEST},
    {LARGEST, ZERO, LARGEST},
    {0x7fe0000000000000, ZERO, LARGEST},
    {LARGEST, MINUS_ONE, ONE},
    {MINUS_LARGEST, MINUS_ONE, ONE},
    {LARGEST, MINUS_LARGEST, ZERO},
    /* infinities */
    {INFINITE, ZERO, ONE},
    {MINUS_INFINITE, ZERO, ONE},
    {ONE, ZERO, INFINITE},
    {INFINITE, ZERO, INFINITE},
    {ONE, MINUS_INFINITE, ONE},
    {ONE, MINUS_INFINITE, INFINITE},
    /* not-a-number */
    {QUIET, ZERO, ONE},
    {SIGNALLING, ZERO, ONE},
    {MINUS_NAN, ZERO, ONE},
    {ONE, QUIET, TWO},
    {ONE, ZERO, SIGNALLING},
    {QUIET, SIGNALLING, MINUS_NAN},
};

struct channel_case {
    uint8_t start, end;
    uint32_t ppm;
};

static const struct channel_case channels[] = {
    /* P5 of document 01 */
    {255, 0, 500000},
    {255, 0, 1},
    /* the ends, and nothing between */
    {0, 255, 0},
    {0, 255, 1000000},
    {255, 0, 0},
    {255, 0, 1000000},
    {7, 7, 0},
    {7, 7, 4294967295},
    {0, 0, 4294967295},
    /* halves, up and down */
    {0, 1, 499999},
    {0, 1, 500000},
    {0, 1, 500001},
    {1, 0, 499999},
    {1, 0, 500000},
    {1, 0, 500001},
    {0, 255, 500000},
    {0, 255, 1960},
    {0, 255, 1961},
    {255, 0, 1960},
    {255, 0, 1961},
    {10, 20, 250000},
    {20, 10, 250000},
    {200, 100, 666667},
    /* ratios above 1,000,000: past the end and held */
    {0, 255, 1000001},
    {0, 100, 2000000},
    {0, 100, 2555000},
    {0, 100, 4294967295},
    {100, 0, 1000001},
    {1, 0, 1499999},
    {1, 0, 1500000},
    {1, 0, 1500001},
    {1, 0, 2499999},
    {1, 0, 2500000},
    {100, 50, 2000000},
    {100, 50, 2010001},
    {255, 0, 4294967295},
    {255, 254, 4294967295},
    {254, 255, 4294967295},
    {128, 129, 127500000},
};

static double of_bits(uint64_t bits)
{
    double x;
    memcpy(&x, &bits, sizeof x);
    return x;
}

int main(void)
{
    for (size_t i = 0; i < sizeof ratios / sizeof ratios[0]; i++) {
        struct ratio_case c = ratios[i];
        uint32_t r = wavendiru_ratio(of_bits(c.value), of_bits(c.minimum), of_bits(c.maximum));
        printf("ratio %016" PRIx64 " %016" PRIx64 " %016" PRIx64 " %" PRIu32 "\n", c.value, c.minimum, c.maximum, r);
    }
    for (size_t i = 0; i < sizeof channels / sizeof channels[0]; i++) {
        struct channel_case c = channels[i];
        printf("channel %u %u %" PRIu32 " %u\n", c.start, c.end, c.ppm, wavendiru_channel(c.start, c.end, c.ppm));
    }
    return 0;
}
