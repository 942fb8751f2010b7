/* Walzhik: growth curves of earlywood and latewood in segments of different degree, with exact weights.
 *
 * The static library libwalzhik.a has ten calls; ring indices are a library of their own, with walzhik_indices.h. Lists and
 * buffers may have any length and any content: a call always returns, reads and writes only what it is lent, and answers or
 * refuses with a number and a place. A list or buffer of length 0 may be a null pointer, as an empty std::vector gives: the
 * functions at the end of this header lend the proved calls, which need a valid pointer, one of their own. In every
 * call the lent buffers must lie apart from each other and from the lists: no call can see that they overlap, and nothing is
 * promised where they do. Building and the curve call need at most 16,384 bytes of stack each. No call keeps anything for the
 * next.
 *
 * A space has m segments, 1 to 48. It is a beam of one part or more, cut at its discontinuities; a part has at most 12 segments
 * and a span of at most 2000:
 *   breaks   m + 1 breakpoints in rings, strictly rising, each from -10000 to 10000
 *   degrees  m degrees, each from 1 to 5
 *   orders   m - 1 continuity orders, one for each join: -1 (a discontinuity), 0, 1 or 2, and less than both
 *            neighbouring degrees
 * It has n = (sum of degrees + m) - (sum over joins of (order + 1)) rows.
 *
 * num, den   at least WALZHIK_CELLS cells each: row i, column j of the last part's weights, both counted from the part's first,
 *            is num[72 i + j] / den[72 i + j], in lowest terms with positive denominator; 0/1 in all unused cells. Cells
 *            past WALZHIK_CELLS are never touched. The weights of any part are those of its own lists alone.
 * coefs      2 n numbers, each from -1000000 to 1000000 thousandths of a millimetre: the earlywood and the latewood
 *            coefficient of each row, side by side. Each wood part has a curve of its own over the same weights.
 * positions  up to 4096 positions in 256ths of a ring, in any order, each within the span. A position on a join is read
 *            from the segment that starts there, on a discontinuity from the segment that ends there, on the last
 *            breakpoint from the last segment.
 * values     at least two cells for each position: both curves in 256ths of a thousandth of a millimetre, earlywood first,
 *            in list order. Each value differs from the exact curve of its wood part by at most (s + p) / 2, on either
 *            side, where p is the degree of the position's segment and s the most non-zero weights on one of its
 *            ordinates, and lies between 256 times the part's least and greatest coefficient with weight there. Cells past
 *            twice the positions' count keep what they held.
 *
 * Numbers of a refusal, tested in this order (8 and 9 as the build meets them), with their places
 * (WALZHIK_LARGEST_PLACE also stands for anything larger):
 *   1  a buffer is too short: num (0), den (1), values, with fewer than two cells a position (2)
 *   2  the list lengths don't fit one m from 1 to 48 (0); over 4096 positions (1)
 *   3  breakpoint: out of range or not above the one before; then the last one of a part with a span over 2000
 *   4  segment: degree out of range
 *   5  join: order out of range
 *  15  segment: the first of a part with more than 12 segments
 *   6  entry, each number of a pair by itself: coefficient out of range; WALZHIK_LARGEST_PLACE, tested first: the count
 *      of numbers is not 2 n
 *   7  entry: position outside the span
 *   8  join: a counted fraction has a numerator's size or a denominator of 2^31 or more
 *   9  join: the jumps lack the needed shape
 * After 1 to 7 and 15 all buffers are unchanged. After 8 and 9 the first WALZHIK_CELLS cells of num and den are 0/1, and the
 * values are unchanged. walzhik_build never gives 6, 7, or the places of 1 and 2 that name values and positions.
 */
#ifndef WALZHIK_H
#define WALZHIK_H

#include <stddef.h>
#include <stdint.h>

#ifdef __cplusplus
extern "C" {
#endif

/* The version of both libraries, of the command and of the packages: it stands here alone, and they take it from here. */
#define WALZHIK_VERSION_MAJOR 2
#define WALZHIK_VERSION_MINOR 0
#define WALZHIK_VERSION_PATCH 0
/* The same as a text, as "2.0.0". */
#define WALZHIK_VERSION WALZHIK_TEXT_(WALZHIK_VERSION_MAJOR) "." WALZHIK_TEXT_(WALZHIK_VERSION_MINOR) "." WALZHIK_TEXT_(WALZHIK_VERSION_PATCH)
#define WALZHIK_TEXT_(number) WALZHIK_TEXT_OF_(number)
#define WALZHIK_TEXT_OF_(number) #number

#define WALZHIK_CELLS 5184
#define WALZHIK_LARGEST_PLACE UINT32_C(4294967295)

/* The numbers of all refusals by name; what each means stands with the calls. */
enum walzhik_number {
    WALZHIK_ANSWER = 0,
    WALZHIK_SHORT_BUFFER = 1,
    WALZHIK_LENGTHS = 2,
    WALZHIK_BREAKPOINT = 3,
    WALZHIK_DEGREE = 4,
    WALZHIK_ORDER = 5,
    WALZHIK_COEFFICIENT = 6,
    WALZHIK_POSITION = 7,
    WALZHIK_TOO_LARGE = 8,
    WALZHIK_JUMPS = 9,
    WALZHIK_SHEET_LINE = 10,
    WALZHIK_TUCSON_LINE = 11,
    WALZHIK_TUCSON_YEAR = 12,
    WALZHIK_TUCSON_CLOSING = 13,
    WALZHIK_RING = 14,
    WALZHIK_LONG_PART = 15,
    WALZHIK_NEVER_REACHED = 16,
    WALZHIK_NOT_DRAWN = 17,
    WALZHIK_ORDINATE = 18,
    WALZHIK_NO_COEFFICIENTS = 19,
    WALZHIK_TOO_LARGE_TO_UNDO = 20,
    WALZHIK_FILE_TEXT = 21,
    WALZHIK_FILE_BYTES = 22,
    WALZHIK_FILE_NAME = 23,
    WALZHIK_FILE_UNIT = 24,
    WALZHIK_FILE_CLOSING = 25,
    WALZHIK_FILE_HEADER = 26
};

/* An answer: number 0, place 0, and the count of rows (build, coefficients), positions (curve), rings (the index calls), series
 * (tucson_read) or bytes (tucson_write). A refusal: count 0. */
typedef struct {
    uint64_t count;
    uint32_t number;
    uint32_t place;
} walzhik_reply;

walzhik_reply walzhik_build(const int32_t *breaks, size_t breaks_len, const int32_t *degrees, size_t degrees_len,
                            const int32_t *orders, size_t orders_len, int64_t *num, size_t num_len, int64_t *den,
                            size_t den_len);

walzhik_reply walzhik_curve(const int32_t *breaks, size_t breaks_len, const int32_t *degrees, size_t degrees_len,
                            const int32_t *orders, size_t orders_len, const int32_t *coefs, size_t coefs_len,
                            const int32_t *positions, size_t positions_len, int64_t *num, size_t num_len, int64_t *den,
                            size_t den_len, int32_t *values, size_t values_len);

/* Tucson decadal files. A line has a series name in columns 1 to 8 (printable ASCII, not all blank), a year in 9 to 12 and one to
 * ten fields of six columns, numbers right-aligned, and ends with byte 10. Consecutive lines with one name are a series, its
 * fields consecutive years; no line passes the end of its decade, and later lines start on years ending in 0. The last field
 * closes the series: 999 for hundredths of a millimetre, -9999 for thousandths.
 *   text     the text, of any length
 *   names    8 bytes a series
 *   years    the first year of each series
 *   counts   how many widths each series has
 *   widths   all widths in thousandths of a millimetre, one series after another; 0 is an absent ring
 * Reading answers with the number of series and fills the fronts of its four buffers; writing answers with the number of bytes
 * and fills the front of text, always in thousandths. Cells behind keep what they held; refusals write nothing. A text of n bytes
 * has at most n / 19 series and n / 6 widths, and what was read from it is written in n bytes.
 * Numbers of reading, lines tested from the top, each in this order, the place the line from 1 (WALZHIK_LARGEST_PLACE also stands
 * for anything larger):
 *   11  malformed columns or end, the decade passed, or a field that is neither 0 to 99999 nor the closing
 *   12  a later line's year is not the next one or doesn't end in 0
 *   13  a last line without a closing field, or 999 after a width over 9999
 *    1  after all lines: one of the four buffers is too short (0)
 * Numbers of writing, tested in this order:
 *    2  the lists don't fit each other: 8 bytes of names and a count for each year, and the counts add up to the widths (0)
 *   11  series from 0: a name, a line's year or a width that the form does not allow, or a name equal to the one before
 *    1  text is too short (0)
 * Each of these two calls needs at most 1024 bytes of stack. */
walzhik_reply walzhik_tucson_read(const uint8_t *text, size_t text_len, uint8_t *names, size_t names_len, int32_t *years,
                                  size_t years_len, uint32_t *counts, size_t counts_len, int32_t *widths,
                                  size_t widths_len);

walzhik_reply walzhik_tucson_write(const uint8_t *names, size_t names_len, const int32_t *years, size_t years_len,
                                   const uint32_t *counts, size_t counts_len, const int32_t *widths, size_t widths_len,
                                   uint8_t *text, size_t text_len);

/* A laboratory's file in the strict form, for walzhik_tucson_read. A line is taken as an editor shows it, and must then stand in the
 * strict columns: nothing moves a digit to another column, nothing joins or cuts numbers, nothing is put in, and every line that is
 * changed or left out is told by a note. Lines count from 1, by byte 10.
 *   text     the file, as it is
 *   header   how many lines at the top are a header, 0 to 99; WALZHIK_NO_HEADER: one of the data bank's form is found where it stands
 *   unit     100 or 1000, for hundredths or thousandths of a millimetre, where a series closes with -999; WALZHIK_NO_UNIT: none is said
 *   out      the strict text
 *   lines    for each line of the strict text the number of that line in the file
 *   notes    two cells for each note, its number and its line, by rising line, then number, none twice
 * An answer: number 0, place 0, and how many bytes, lines and notes there are (2 notes cells). A refusal: three zeros. Cells behind
 * an answer keep what they held; refusals write nothing. For a file of n bytes 2 n bytes of out, n / 10 cells of lines and
 * 2 n + 4 cells of notes are always enough, by proof; so are 79 bytes, one cell and 22 cells for each byte 10 of the file and for two
 * more, and 4 cells of notes besides, with which the call need not measure first what it takes, and is quicker.
 * Notes, of what was taken off, left out or put for something else:
 *    1  the mark EF BB BF at the start of the file        7  a site name behind the tenth field
 *    2  byte 26 and what stands behind it                 8  the last line had no byte 10
 *    3  byte 13 before byte 10                            9  a header's line
 *    4  tabs, as blanks up to the next multiple of 8     10  bytes over 127 in the name, as ?
 *    5  trailing blanks                                  11  -999, as the closing of the unit that is said
 *    6  a blank line
 * and remarks, which change nothing:
 *   12  a series' first or last width is 0, or the series has no width
 *   13  a line of a series in thousandths whose last width is 999
 *   14  the last line of a series in another unit than the first series
 * Numbers of a refusal, tested in this order, each for all lines from the top, with their places:
 *   26  header is over 100 (0);  24  unit is none of 0, 100 and 1000 (0)
 *   21  more than 4294967295 bytes (WALZHIK_LARGEST_PLACE); line: a zero byte, byte 13 without byte 10, EF BB BF inside, anything but
 *       bytes 26, 32, 9, 10 and 13 behind byte 26; UTF-16 (1)
 *   26  fewer lines than header says (0); line: one of the header's can be read as a strict line
 *   11  line: no strict line;  22  line: bytes over 127 which leave open what its columns are, or whose name is that of the line before
 *   23  line: the year runs into the name
 *   24  a series' last line: -999 and no unit is said, or another unit's closing than is said;  25  line: 999 before the closing 999
 *   11, 12, 13  line: as walzhik_tucson_read has them
 *    1  out (0), lines (1) or notes (2) is too short
 * The call needs at most 4096 bytes of stack. */
#define WALZHIK_NO_HEADER 100
#define WALZHIK_NO_UNIT 0

typedef struct {
    uint64_t bytes;
    uint64_t lines;
    uint64_t notes;
    uint32_t number;
    uint32_t place;
} walzhik_cleaned;

walzhik_cleaned walzhik_tucson_clean(const uint8_t *text, size_t text_len, uint32_t header, uint32_t unit, uint8_t *out,
                                     size_t out_len, size_t *lines, size_t lines_len, size_t *notes, size_t notes_len);

/* When the curve reaches a width: the least position of the span, in 256ths of a ring, whose value for one wood part is 256 width
 * or more, by the values that walzhik_curve gives. All positions count, ends included, and none before the answer reaches the
 * width, whether the curve rises, falls, waves or jumps.
 *   width    in thousandths of a millimetre, any 32-bit number
 * An answer: number 0, place 0, and the position. A refusal: position 0. Numbers as in walzhik_curve without positions, so never
 * 7 or the places of 1 and 2 that name values and positions, and after all others
 *   16  no position of the span reaches the width (0)
 * After 16 the weights are as after an answer. Each of these two calls needs at most 16384 bytes of stack. */
typedef struct {
    int32_t position;
    uint32_t number;
    uint32_t place;
} walzhik_reach;

walzhik_reach walzhik_earlywood_reach(const int32_t *breaks, size_t breaks_len, const int32_t *degrees, size_t degrees_len,
                                      const int32_t *orders, size_t orders_len, const int32_t *coefs, size_t coefs_len,
                                      int32_t width, int64_t *num, size_t num_len, int64_t *den, size_t den_len);

walzhik_reach walzhik_latewood_reach(const int32_t *breaks, size_t breaks_len, const int32_t *degrees, size_t degrees_len,
                                     const int32_t *orders, size_t orders_len, const int32_t *coefs, size_t coefs_len,
                                     int32_t width, int64_t *num, size_t num_len, int64_t *den, size_t den_len);

/* One piece of a wood part's curve for the screen: the named segment, if its degree is 1, 2 or 3.
 *   segment  its number, counted from 0
 * An answer has number 0, place 0, the degree, degree + 1 ordinates in thousandths of a millimetre and the segment's two
 * breakpoints. All floats are exact: an ordinate times 256 is the whole number that the curve call blends, an end is the
 * breakpoint itself. The polynomial with these ordinates differs from the exact curve by at most s / 512 thousandths on the
 * segment, and at its end it is the curve call's value, as it is at its start unless a discontinuity is there. Ordinates past
 * the degree are 0.0. Numbers as in walzhik_curve without positions, and after all others
 *   17  the segment's number: there is no such segment, or its degree is 4 or 5
 * After a refusal all but number and place is 0; after 17 the weights are as after an answer. Each of these two calls needs at
 * most 16384 bytes of stack. */
typedef struct {
    uint32_t number;
    uint32_t place;
    uint32_t degree;
    uint32_t unused;
    double o0, o1, o2, o3;
    double start, end;
} walzhik_piece;

walzhik_piece walzhik_earlywood_piece(const int32_t *breaks, size_t breaks_len, const int32_t *degrees, size_t degrees_len,
                                      const int32_t *orders, size_t orders_len, const int32_t *coefs, size_t coefs_len,
                                      uint32_t segment, int64_t *num, size_t num_len, int64_t *den, size_t den_len);

walzhik_piece walzhik_latewood_piece(const int32_t *breaks, size_t breaks_len, const int32_t *degrees, size_t degrees_len,
                                     const int32_t *orders, size_t orders_len, const int32_t *coefs, size_t coefs_len,
                                     uint32_t segment, int64_t *num, size_t num_len, int64_t *den, size_t den_len);

/* Coefficients from local ordinates: the exact fractions that give the ordinates of one wood part's curve. One call takes a whole
 * beam.
 *   ordinates           one number for each column: the Bernstein ordinates of all segments in order, degree + 1 for each, in
 *                       256ths of a thousandth of a millimetre, each from -256000000 to 256000000
 *   coef_num, coef_den  at least one cell for each ordinate: the coefficient of row i is coef_num[i] / coef_den[i], also in 256ths
 *                       of a thousandth, in lowest terms with positive denominator. Cells from n up to the ordinates' count are
 *                       0/1, later ones keep what they held.
 * The answer is n. The combination of the rows with these coefficients is the list of ordinates, exactly, and no other n fractions
 * give it. Where a coefficient is 256 c with a whole number c in range, c is what walzhik_curve takes for that row; the exact curve
 * then has exactly these ordinates, while the ordinates that walzhik_curve works with are rounded.
 * Numbers 1 to 5 and 15 as in walzhik_build, and after place 1 of number 1
 *    1  coef_num (3), then coef_den (4), has fewer cells than there are ordinates
 * then, before anything is built,
 *   18  entry: ordinate out of range; WALZHIK_LARGEST_PLACE, tested first: their count is not the sum of degrees + m
 * and then step by step, orders rising at each join from the left, each step in this order
 *    8  join: as in walzhik_build, and so is 9
 *   20  join: a number times a jump, or a sum of these, has a numerator's size or a denominator of 2^31 or more
 *   19  join: that sum is not zero: the ordinates miss a condition of the join, so that no fractions of any size give them
 *   20  join: a share, a difference or a quotient of the undoing is as large
 * After 1 to 5, 15 and 18 all buffers are unchanged. After 8, 9, 19 and 20 the first WALZHIK_CELLS cells of num and den, and those
 * of coef_num and coef_den up to the ordinates' count, are 0/1. The call needs at most 32768 bytes of stack. */
walzhik_reply walzhik_coefficients(const int32_t *breaks, size_t breaks_len, const int32_t *degrees, size_t degrees_len,
                                   const int32_t *orders, size_t orders_len, const int32_t *ordinates, size_t ordinates_len,
                                   int64_t *num, size_t num_len, int64_t *den, size_t den_len, int64_t *coef_num,
                                   size_t coef_num_len, int64_t *coef_den, size_t coef_den_len);

/* The calls as programs use them: a list or buffer of length 0 may be a null pointer. Each name above stands for the function below,
 * which lends the proved call a valid pointer in its place; with WALZHIK_PROVED_CALLS defined it is the proved call itself. */
#ifndef WALZHIK_PROVED_CALLS
static inline void *walzhik_lent(const void *list, size_t list_len)
{
    static int64_t nothing;
    return list_len == 0 ? (void *)&nothing : (void *)list;
}
#define WALZHIK_LEND_(type, list) (type *)walzhik_lent(list, list##_len), list##_len

static inline walzhik_reply walzhik_build_lent(const int32_t *breaks, size_t breaks_len, const int32_t *degrees,
                                               size_t degrees_len, const int32_t *orders, size_t orders_len,
                                               int64_t *num, size_t num_len, int64_t *den, size_t den_len)
{
    return walzhik_build(WALZHIK_LEND_(const int32_t, breaks), WALZHIK_LEND_(const int32_t, degrees),
                         WALZHIK_LEND_(const int32_t, orders), WALZHIK_LEND_(int64_t, num),
                         WALZHIK_LEND_(int64_t, den));
}
#define walzhik_build walzhik_build_lent

static inline walzhik_reply walzhik_curve_lent(const int32_t *breaks, size_t breaks_len, const int32_t *degrees,
                                               size_t degrees_len, const int32_t *orders, size_t orders_len,
                                               const int32_t *coefs, size_t coefs_len, const int32_t *positions,
                                               size_t positions_len, int64_t *num, size_t num_len, int64_t *den,
                                               size_t den_len, int32_t *values, size_t values_len)
{
    return walzhik_curve(WALZHIK_LEND_(const int32_t, breaks), WALZHIK_LEND_(const int32_t, degrees),
                         WALZHIK_LEND_(const int32_t, orders), WALZHIK_LEND_(const int32_t, coefs),
                         WALZHIK_LEND_(const int32_t, positions), WALZHIK_LEND_(int64_t, num),
                         WALZHIK_LEND_(int64_t, den), WALZHIK_LEND_(int32_t, values));
}
#define walzhik_curve walzhik_curve_lent

static inline walzhik_reply walzhik_tucson_read_lent(const uint8_t *text, size_t text_len, uint8_t *names,
                                                     size_t names_len, int32_t *years, size_t years_len,
                                                     uint32_t *counts, size_t counts_len, int32_t *widths,
                                                     size_t widths_len)
{
    return walzhik_tucson_read(WALZHIK_LEND_(const uint8_t, text), WALZHIK_LEND_(uint8_t, names),
                               WALZHIK_LEND_(int32_t, years), WALZHIK_LEND_(uint32_t, counts),
                               WALZHIK_LEND_(int32_t, widths));
}
#define walzhik_tucson_read walzhik_tucson_read_lent

static inline walzhik_reply walzhik_tucson_write_lent(const uint8_t *names, size_t names_len, const int32_t *years,
                                                      size_t years_len, const uint32_t *counts, size_t counts_len,
                                                      const int32_t *widths, size_t widths_len, uint8_t *text,
                                                      size_t text_len)
{
    return walzhik_tucson_write(WALZHIK_LEND_(const uint8_t, names), WALZHIK_LEND_(const int32_t, years),
                                WALZHIK_LEND_(const uint32_t, counts), WALZHIK_LEND_(const int32_t, widths),
                                WALZHIK_LEND_(uint8_t, text));
}
#define walzhik_tucson_write walzhik_tucson_write_lent

static inline walzhik_cleaned walzhik_tucson_clean_lent(const uint8_t *text, size_t text_len, uint32_t header, uint32_t unit,
                                                        uint8_t *out, size_t out_len, size_t *lines, size_t lines_len,
                                                        size_t *notes, size_t notes_len)
{
    return walzhik_tucson_clean(WALZHIK_LEND_(const uint8_t, text), header, unit, WALZHIK_LEND_(uint8_t, out),
                                WALZHIK_LEND_(size_t, lines), WALZHIK_LEND_(size_t, notes));
}
#define walzhik_tucson_clean walzhik_tucson_clean_lent

static inline walzhik_reach walzhik_earlywood_reach_lent(const int32_t *breaks, size_t breaks_len,
                                                         const int32_t *degrees, size_t degrees_len,
                                                         const int32_t *orders, size_t orders_len, const int32_t *coefs,
                                                         size_t coefs_len, int32_t width, int64_t *num, size_t num_len,
                                                         int64_t *den, size_t den_len)
{
    return walzhik_earlywood_reach(WALZHIK_LEND_(const int32_t, breaks), WALZHIK_LEND_(const int32_t, degrees),
                                   WALZHIK_LEND_(const int32_t, orders), WALZHIK_LEND_(const int32_t, coefs), width,
                                   WALZHIK_LEND_(int64_t, num), WALZHIK_LEND_(int64_t, den));
}
#define walzhik_earlywood_reach walzhik_earlywood_reach_lent

static inline walzhik_reach walzhik_latewood_reach_lent(const int32_t *breaks, size_t breaks_len,
                                                        const int32_t *degrees, size_t degrees_len,
                                                        const int32_t *orders, size_t orders_len, const int32_t *coefs,
                                                        size_t coefs_len, int32_t width, int64_t *num, size_t num_len,
                                                        int64_t *den, size_t den_len)
{
    return walzhik_latewood_reach(WALZHIK_LEND_(const int32_t, breaks), WALZHIK_LEND_(const int32_t, degrees),
                                  WALZHIK_LEND_(const int32_t, orders), WALZHIK_LEND_(const int32_t, coefs), width,
                                  WALZHIK_LEND_(int64_t, num), WALZHIK_LEND_(int64_t, den));
}
#define walzhik_latewood_reach walzhik_latewood_reach_lent

static inline walzhik_piece walzhik_earlywood_piece_lent(const int32_t *breaks, size_t breaks_len,
                                                         const int32_t *degrees, size_t degrees_len,
                                                         const int32_t *orders, size_t orders_len, const int32_t *coefs,
                                                         size_t coefs_len, uint32_t segment, int64_t *num,
                                                         size_t num_len, int64_t *den, size_t den_len)
{
    return walzhik_earlywood_piece(WALZHIK_LEND_(const int32_t, breaks), WALZHIK_LEND_(const int32_t, degrees),
                                   WALZHIK_LEND_(const int32_t, orders), WALZHIK_LEND_(const int32_t, coefs), segment,
                                   WALZHIK_LEND_(int64_t, num), WALZHIK_LEND_(int64_t, den));
}
#define walzhik_earlywood_piece walzhik_earlywood_piece_lent

static inline walzhik_piece walzhik_latewood_piece_lent(const int32_t *breaks, size_t breaks_len,
                                                        const int32_t *degrees, size_t degrees_len,
                                                        const int32_t *orders, size_t orders_len, const int32_t *coefs,
                                                        size_t coefs_len, uint32_t segment, int64_t *num,
                                                        size_t num_len, int64_t *den, size_t den_len)
{
    return walzhik_latewood_piece(WALZHIK_LEND_(const int32_t, breaks), WALZHIK_LEND_(const int32_t, degrees),
                                  WALZHIK_LEND_(const int32_t, orders), WALZHIK_LEND_(const int32_t, coefs), segment,
                                  WALZHIK_LEND_(int64_t, num), WALZHIK_LEND_(int64_t, den));
}
#define walzhik_latewood_piece walzhik_latewood_piece_lent

static inline walzhik_reply walzhik_coefficients_lent(const int32_t *breaks, size_t breaks_len, const int32_t *degrees,
                                                      size_t degrees_len, const int32_t *orders, size_t orders_len,
                                                      const int32_t *ordinates, size_t ordinates_len, int64_t *num,
                                                      size_t num_len, int64_t *den, size_t den_len, int64_t *coef_num,
                                                      size_t coef_num_len, int64_t *coef_den, size_t coef_den_len)
{
    return walzhik_coefficients(WALZHIK_LEND_(const int32_t, breaks), WALZHIK_LEND_(const int32_t, degrees),
                                WALZHIK_LEND_(const int32_t, orders), WALZHIK_LEND_(const int32_t, ordinates),
                                WALZHIK_LEND_(int64_t, num), WALZHIK_LEND_(int64_t, den),
                                WALZHIK_LEND_(int64_t, coef_num), WALZHIK_LEND_(int64_t, coef_den));
}
#define walzhik_coefficients walzhik_coefficients_lent
#endif /* WALZHIK_PROVED_CALLS */

#ifdef __cplusplus
}
#endif

#endif
