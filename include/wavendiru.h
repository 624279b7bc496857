/* Conditional marks for embossed sheets: the calls for C.
 *
 * Link with target/staticlib/libexports.a, and for wavendiru_save_job with libsaveexports.a beside it (tools/archives writes both). No call
 * here keeps state, takes memory or stops the program, and all may be made from any thread, given WAVENDIRU_STACK bytes of stack.
 *
 * Floating point: all but wavendiru_channel rest on the state of the thread that calls them. The caller owes rounding to nearest with
 * ties to even, and subnormal numbers kept: in MXCSR RC = 00, FTZ = 0, DAZ = 0. Every C program on x86-64 Linux starts so; fesetround,
 * -ffast-math at the link, or a library that sets FTZ or DAZ can change it. In another state ratios and reports differ (tests/c/env).
 */
#ifndef WAVENDIRU_H
#define WAVENDIRU_H

#include <stddef.h>
#include <stdint.h>

#ifdef __cplusplus
extern "C" {
#endif

/* The most bytes that a job text may have: a buffer of this length is always long enough for wavendiru_save_job. */
#define WAVENDIRU_MAX_TEXT 65536

/* The bytes of the longest report that any job can have: a report buffer of this length is always long enough. */
#define WAVENDIRU_LONGEST_REPORT 45033

/* The bytes of stack that wavendiru_whole_job and wavendiru_save_job need on x86-64, with what the loader takes to bind memcpy and memset at
 * their first call. Measured; tests/c/stack fails where it measures more.
 */
#define WAVENDIRU_STACK 206272

/* The number of a report, the first field of its second line. Behind it stand place, count and actual; S is the job's starting count.
 * A refusal has no marks. 1, 5 and 6 are refusals of lent columns; no job text has them. 7, 8 and 9 are refusals of deciding, 13 of saving.
 */
enum wavendiru_number {
    WAVENDIRU_ANSWERED = 0,         /* place 0, the count reached, actual 0 */
    WAVENDIRU_UNEQUAL_COLUMNS = 1,  /* cell columns, or region columns, differ in length: 0, S, 0 */
    WAVENDIRU_TOO_MANY = 2,         /* over 1,024 cells, 1,024 regions, 64 rules or 65,536 bytes of texts: 0, S, 0 */
    WAVENDIRU_BAD_CELL = 3,         /* a cell or region off the grid (or a lent cell that says nothing): its index, S, 0 */
    WAVENDIRU_NOT_RISING = 4,       /* cells or regions not strictly rising by row, col: index of the later one, S, 0 */
    WAVENDIRU_BAD_NAME = 5,         /* a name outside the pool: the rule, or 64 for the sheet's name, S, 0 */
    WAVENDIRU_TOO_SHORT = 6,        /* bar columns or scratch too short: 0, S, 0 */
    WAVENDIRU_OVER_LIMIT = 7,       /* more evaluations than the limit: 0, the count there, the count that would be over */
    WAVENDIRU_OVER_COUNTER = 8,     /* more evaluations than a 64-bit counter holds: 0, the count there, 0 */
    WAVENDIRU_TOO_MANY_MARKS = 9,   /* over 1,024 marks: 0, the count reached, how many marks */
    WAVENDIRU_LONG_TEXT = 10,       /* a job text over WAVENDIRU_MAX_TEXT bytes: 0, 0, 0 */
    WAVENDIRU_BAD_LINE = 11,        /* a line of the job text is malformed, missing or extra: its number from 1, 0, 0 */
    WAVENDIRU_LONG_SAVED = 13       /* a text to be saved is longer than the lent bytes: 0, S, the length needed */
};

/* The shape of a mark, the last field of its line in a report: between which ends the ratio behind its bar or colour was taken. The marks of
 * rules that are neither scales nor bars have `-` there. wavendiru_ratio gives the parts per million alone.
 */
enum wavendiru_shape {
    WAVENDIRU_PLAIN = 0,
    WAVENDIRU_FLAT = 1,       /* maximum <= minimum: the ratio is 1,000,000 */
    WAVENDIRU_TOO_WIDE = 2,   /* not flat, and maximum - minimum is not finite: the ratio is 0 */
    WAVENDIRU_UPPER_HALF = 3  /* added to these where a scale of three colours used its upper half */
};

/* A whole job: reads the job text, decides its marks and bars, and writes the report.
 *
 * Result: the report's length in bytes, or 0 if the report is longer than report_len. A refused job has a report too, of two lines.
 * Written: every one of the report_len bytes, the report first and 0 in all after it; where the result is 0, all are 0. A report is ASCII
 * text, its lines end in LF; one that fills its buffer exactly has no 0 behind it.
 * Inputs: any bytes, any lengths below 2^63 (no object in memory is longer), whatever the report's bytes held.
 * The caller owes:
 *   - text_len readable bytes at text, which nothing changes before the call returns;
 *   - report_len writable bytes at report, which nothing else reads or writes before the call returns;
 *   - that no byte is in both;
 *   - lengths below 2^63. A pointer whose length is 0 is not followed, and may be null;
 *   - the floating-point state said at the top;
 *   - WAVENDIRU_STACK bytes of free stack. The call does not recurse. With less it dies at the guard page below the stack, so the stack
 *     needs to have one.
 */
size_t wavendiru_whole_job(const uint8_t *text, size_t text_len, uint8_t *report, size_t report_len);

/* A job saved: reads the job text and writes the text of the job read, which is the same text. In libsaveexports.a.
 *
 * Result: the text's length in bytes. A text that is turned away (2, 3, 4, 10, 11 or 13) has the two lines of a refused report in its
 * place, and their length. 0 if what is to be written is longer than saved_len. A job text begins with `l`, a report with `n`.
 * Written: every one of the saved_len bytes, the text or report first and 0 in all after it; where the result is 0, all are 0.
 * Inputs: any bytes, any lengths below 2^63, whatever the saved bytes held.
 * The caller owes: what wavendiru_whole_job asks, with saved for report.
 */
size_t wavendiru_save_job(const uint8_t *text, size_t text_len, uint8_t *saved, size_t saved_len);

/* The place of value between minimum and maximum, in parts per million.
 *
 * Result: 1,000,000 if maximum <= minimum. Else (value - minimum) / (maximum - minimum), each operation rounded once by IEEE 754, held
 * to 0..1, times 1,000,000, and rounded to a whole number with halves away from zero; 0 if the quotient is not a number. Always at
 * most 1,000,000.
 * Inputs: any three doubles, not-a-number, infinities, -0 and subnormal numbers too.
 * The caller owes: the floating-point state said at the top. Rounding upward, the ratio of 41 between 0 and 640 is 64,063, not 64,062.
 */
uint32_t wavendiru_ratio(double value, double minimum, double maximum);

/* One colour channel on the way from start to end.
 *
 * Result: (start * 1,000,000 + (end - start) * ppm + 500,000) / 1,000,000 in whole numbers with a sign, the quotient cut toward zero
 * and then held to 0..255.
 * Inputs: any start, end and ppm, also a ppm above 1,000,000. Whole numbers only: the floating-point state has no part in it.
 * The caller owes: nothing.
 */
uint8_t wavendiru_channel(uint8_t start, uint8_t end, uint32_t ppm);

#ifdef __cplusplus
}
#endif

#endif
