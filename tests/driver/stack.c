/* Measures the stack that each call of the engine needs, and fails where a call
 * needs more than docs/DECISIONS.md says.
 *
 * A call runs on a thread whose stack is painted before and searched after it,
 * on the longest part and on the longest beam: twelve segments of degree 5 and
 * order 2, and four such parts; with the most positions a call takes; Tucson
 * series of several lines, in both units. What the thread itself needs is taken
 * off, by a first run that calls nothing. It must be linked with -z now, or the
 * first call that needs a function of the C library has the dynamic linker on
 * its stack. */

#define _GNU_SOURCE

#include <pthread.h>
#include <stdio.h>
#include <stdlib.h>
#include <string.h>

#define WALZHIK_PROVED_CALLS /* the calls themselves, without the header\'s functions around them */
#include "walzhik_indices.h"

enum { DEGREE = 5, ORDER = 2, PART = 12, BEAM = 48, COLUMNS = (DEGREE + 1) * BEAM };
enum { POSITIONS = 4096, PARTS = 2, STACK = 1 << 20, PAINT = 0xA5 };

/* The most bytes that a call may need. The index calls hold the rings' positions, the call for coefficients the numbers of the
 * rows before and after a step. */
enum { SPACE_LIMIT = 16384, INDICES_LIMIT = 32768, COEFFICIENTS_LIMIT = 32768 };
enum { TUCSON_LIMIT = 1024, CLEAN_LIMIT = 4096, LINES_LIMIT = 1024 };

/* A space, and what the calls on it take. */
static size_t segments, columns, rows;
static int32_t breaks[BEAM + 1], degrees[BEAM], orders[BEAM - 1];
static int32_t coefs[PARTS * COLUMNS], ordinates[COLUMNS], positions[POSITIONS], values[PARTS * POSITIONS], widths[BEAM + 1];
static int64_t num[WALZHIK_CELLS], den[WALZHIK_CELLS], rings[BEAM + 1], coef_num[COLUMNS], coef_den[COLUMNS];
#define LISTS breaks, segments + 1, degrees, segments, orders, segments - 1
#define CURVES LISTS, coefs, PARTS * rows
#define WEIGHTS num, WALZHIK_CELLS, den, WALZHIK_CELLS
#define RINGS 0, widths, segments + 1, WEIGHTS, values, PARTS * POSITIONS, rings, segments + 1

static const char text[] = "ABC01   1908     7     8\n"
                           "ABC01   1910     9     0  9999   999\n"
                           "ABC02   -999 -9999\n"
                           "ABC01     -3  1204     0   999\n"
                           "ABC01      0 10000 -9999\n";
enum { TEXT = sizeof text - 1, SERIES = TEXT / 19, NAME = 8, WIDTHS = TEXT / 6 };
static uint8_t names[NAME * SERIES], written[TEXT];
static int32_t years[SERIES], measured_widths[WIDTHS];
static uint32_t counts[SERIES];
static walzhik_reply reply;

/* A file with what asks the most of the call: a mark, a header of the data bank's form, tabs, bytes over 127, a site name, a closing of
 * no unit and byte 26. */
static const char file[] = "\xEF\xBB\xBF"
                           "ABC    1 Hillside                   QUSP\r\n"
                           "ABC    2 Somewhere    Oak          300M\r\n"
                           "ABC    3 Somebody\r\n\r\n"
                           "AB\xC4 01  1990     1     2     3     4     5     6     7     8     9    10   AB123C\r\n"
                           "AB\xC4 01  2000  9999  -999 \r\n"
                           "AB\xC3\x84 02  2000  9999  -999 \r\n"
                           "ABC02\t1990     1     2     3\t   5  -999\x1A\r\n";
enum { FILE_BYTES = sizeof file - 1 };
static uint8_t strict[2 * FILE_BYTES];
static size_t numbers[FILE_BYTES / 10], notes[2 * FILE_BYTES + 4];

/* So many segments, cut into parts; the ordinates are those of a constant curve. */
static void make_space(size_t count)
{
    segments = count;
    columns = (DEGREE + 1) * segments;
    rows = columns;
    for (size_t i = 0; i <= segments; i++)
        breaks[i] = (int32_t)i;
    for (size_t i = 0; i < segments; i++)
        degrees[i] = DEGREE;
    for (size_t i = 0; i + 1 < segments; i++) {
        orders[i] = (i + 1) % PART == 0 ? -1 : ORDER;
        rows -= (size_t)(orders[i] + 1);
    }
    for (size_t i = 0; i < columns; i++)
        ordinates[i] = 256;
    for (size_t i = 0; i < POSITIONS; i++)
        positions[i] = (int32_t)(i % (256 * segments + 1));
}

static void *nothing(void *unused) { return unused; }

static void *build(void *unused)
{
    reply = walzhik_build(LISTS, WEIGHTS);
    return unused;
}

static void *curve(void *unused)
{
    reply = walzhik_curve(CURVES, positions, POSITIONS, WEIGHTS, values, PARTS * POSITIONS);
    return unused;
}

static void *earlywood(void *unused)
{
    reply = walzhik_earlywood_indices(CURVES, RINGS);
    return unused;
}

static void *latewood(void *unused)
{
    reply = walzhik_latewood_indices(CURVES, RINGS);
    return unused;
}

/* Lines with long names and numbers, with room and without. */
enum { LINE = 87, LINES = BEAM + 1 };
static uint8_t table[LINE * LINES];
static int32_t line_widths[LINES];
static int64_t line_indices[LINES];
static const uint8_t quoted[] = "\"\"\"\"\"\"\"\"";
#define INDEXED quoted, 8, INT32_MIN, line_widths, LINES, values, PARTS * LINES, line_indices, LINES

static void *lines(void *unused)
{
    for (size_t i = 0; i < LINES; i++) {
        line_widths[i] = INT32_MIN;
        line_indices[i] = INT64_MIN;
    }
    walzhik_reply refused = walzhik_earlywood_ring_lines(INDEXED, table, LINE);
    reply = walzhik_latewood_ring_lines(INDEXED, table, sizeof table);
    reply.number |= refused.number != WALZHIK_SHORT_BUFFER;
    return unused;
}

/* A width that no value reaches: 16, after the whole search. */
static const int32_t never = 1;

static void *reach(void *unused)
{
    walzhik_reach early = walzhik_earlywood_reach(CURVES, never, WEIGHTS);
    walzhik_reach late = walzhik_latewood_reach(CURVES, never, WEIGHTS);
    reply = (walzhik_reply){0, early.number != 16 || late.number != 16, 0};
    return unused;
}

/* A segment of degree 5 isn't drawn: the call has done all its work by then. */
static void *drawn(void *unused)
{
    walzhik_piece piece = walzhik_latewood_piece(CURVES, 0, WEIGHTS);
    reply = (walzhik_reply){0, piece.number != 17, 0};
    return unused;
}

static void *coefficients(void *unused)
{
    reply = walzhik_coefficients(LISTS, ordinates, columns, WEIGHTS, coef_num, columns, coef_den, columns);
    return unused;
}

static void *tucson_read(void *unused)
{
    reply = walzhik_tucson_read((const uint8_t *)text, TEXT, names, NAME * SERIES, years, SERIES, counts, SERIES,
                                measured_widths, WIDTHS);
    return unused;
}

static void *tucson_clean(void *unused)
{
    walzhik_cleaned cleaned = walzhik_tucson_clean((const uint8_t *)file, FILE_BYTES, WALZHIK_NO_HEADER, 1000, strict,
                                                   2 * FILE_BYTES, numbers, FILE_BYTES / 10, notes, 2 * FILE_BYTES + 4);
    reply = (walzhik_reply){cleaned.notes, cleaned.number, cleaned.place};
    return unused;
}

/* What tucson_read has left. */
static void *tucson_write(void *unused)
{
    size_t series = reply.count, widths_read = 0;
    for (size_t i = 0; i < series; i++)
        widths_read += counts[i];
    reply = walzhik_tucson_write(names, NAME * series, years, series, counts, series, measured_widths, widths_read, written,
                                 TEXT);
    return unused;
}

/* The bytes of a painted stack that a thread running `work` changed. */
static size_t used_by(void *(*work)(void *))
{
    unsigned char *stack = aligned_alloc(4096, STACK);
    pthread_attr_t attributes;
    pthread_t thread;
    if (stack == NULL)
        abort();
    memset(stack, PAINT, STACK);
    if (pthread_attr_init(&attributes) != 0 || pthread_attr_setstack(&attributes, stack, STACK) != 0 ||
        pthread_create(&thread, &attributes, work, NULL) != 0 || pthread_join(thread, NULL) != 0)
        abort();
    size_t untouched = 0;
    while (untouched < STACK && stack[untouched] == PAINT)
        untouched++;
    free(stack);
    return STACK - untouched;
}

static int measured(const char *name, void *(*work)(void *), size_t limit)
{
    size_t bytes = used_by(work) - used_by(nothing);
    printf("  %-17s %6zu bytes of stack, at most %zu\n", name, bytes, limit);
    if (reply.number != 0 || bytes > limit) {
        printf("FAILED: %s (number %u)\n", name, (unsigned)reply.number);
        return 1;
    }
    return 0;
}

/* The calls on a space of so many segments. */
static int measured_on(size_t count)
{
    int failed = 0;
    make_space(count);
    printf("  %zu segments\n", count);
    failed |= measured("build", build, SPACE_LIMIT);
    failed |= measured("curve", curve, SPACE_LIMIT);
    failed |= measured("earlywood indices", earlywood, INDICES_LIMIT);
    failed |= measured("latewood indices", latewood, INDICES_LIMIT);
    failed |= measured("lines", lines, LINES_LIMIT);
    failed |= measured("reach", reach, SPACE_LIMIT);
    failed |= measured("piece", drawn, SPACE_LIMIT);
    failed |= measured("coefficients", coefficients, COEFFICIENTS_LIMIT);
    return failed;
}

int main(void)
{
    int failed = measured_on(PART) | measured_on(BEAM);
    /* tucson_write writes what tucson_read has left, so in this order */
    failed |= measured("tucson_read", tucson_read, TUCSON_LIMIT);
    failed |= measured("tucson_write", tucson_write, TUCSON_LIMIT);
    failed |= measured("tucson_clean", tucson_clean, CLEAN_LIMIT);
    return failed;
}
