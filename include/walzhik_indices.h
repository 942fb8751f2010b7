/* Walzhik, second library: ring indices, each measured ring divided by the curve of one wood part, and the lines of their table.
 *
 * The static library libwalzhik_indices.a has four calls, of which two work by what walzhik_curve promises. It needs no other library,
 * and can be linked into one program with libwalzhik.a, in either order. What walzhik.h says of lists, buffers, refusals and the struct
 * walzhik_reply holds here too.
 *
 * The rings are consecutive; ring r is read at position 256 r, so one outside the span gives 7, whatever its number is.
 *   first    the first ring's number
 *   widths   up to 4096 widths in thousandths of a millimetre, each from 0 (an absent ring) to 99999
 *   values   at least two cells for each ring: the values at the rings' positions, as walzhik_curve writes them
 *   indices  at least one cell for each ring: the greatest whole number at or below 256000 width / value, by the named wood
 *            part's value; -1 for an absent ring. Cells past the rings' count keep what they held.
 * The answer is the rings' count. Numbers as in walzhik_curve, with 1, place 3, where indices is too short, and after all others
 *   14  entry: a width out of range, or a value of zero or less under a present ring
 * No refusal touches the indices; after 14 the weights and the values are as after an answer. Each of these two calls needs
 * at most 32768 bytes of stack.
 *
 * walzhik_earlywood_ring_lines and walzhik_latewood_ring_lines write a line NAME,YEAR,WIDTH,CURVE,INDEX and byte 10 for each ring: the
 * name without outer blanks, in quotation marks where it holds a comma or a quotation mark; the width in millimetres with three
 * decimals; the named wood part's value, rounded to millionths of a millimetre, in millimetres with six; nothing for the index -1.
 *   name     eight bytes, as Tucson files have them
 *   first    the year of the first ring
 *   widths, values, indices  of any number of rings, as the index calls leave them: two values and an index for each width
 *   out      at least as many bytes as the lines have: 87 for each ring are always enough, by proof. Bytes past them keep what
 *            they held.
 * The answer is the count of bytes. Place is 0 in each refusal, none of which writes anything:
 *   2   the name has not eight bytes, or the lists do not fit each other
 *   11  a name that Tucson files do not allow
 *   1   out is too short
 * Each of these two calls needs at most 1024 bytes of stack. */
#ifndef WALZHIK_INDICES_H
#define WALZHIK_INDICES_H

#include "walzhik.h"

#ifdef __cplusplus
extern "C" {
#endif

walzhik_reply walzhik_earlywood_indices(const int32_t *breaks, size_t breaks_len, const int32_t *degrees, size_t degrees_len,
                                        const int32_t *orders, size_t orders_len, const int32_t *coefs, size_t coefs_len,
                                        int32_t first, const int32_t *widths, size_t widths_len, int64_t *num,
                                        size_t num_len, int64_t *den, size_t den_len, int32_t *values, size_t values_len,
                                        int64_t *indices, size_t indices_len);

walzhik_reply walzhik_latewood_indices(const int32_t *breaks, size_t breaks_len, const int32_t *degrees, size_t degrees_len,
                                       const int32_t *orders, size_t orders_len, const int32_t *coefs, size_t coefs_len,
                                       int32_t first, const int32_t *widths, size_t widths_len, int64_t *num,
                                       size_t num_len, int64_t *den, size_t den_len, int32_t *values, size_t values_len,
                                       int64_t *indices, size_t indices_len);

walzhik_reply walzhik_earlywood_ring_lines(const uint8_t *name, size_t name_len, int32_t first, const int32_t *widths,
                                           size_t widths_len, const int32_t *values, size_t values_len,
                                           const int64_t *indices, size_t indices_len, uint8_t *out, size_t out_len);

walzhik_reply walzhik_latewood_ring_lines(const uint8_t *name, size_t name_len, int32_t first, const int32_t *widths,
                                          size_t widths_len, const int32_t *values, size_t values_len,
                                          const int64_t *indices, size_t indices_len, uint8_t *out, size_t out_len);

/* As in walzhik.h: a list or buffer of length 0 may be a null pointer. */
#ifndef WALZHIK_PROVED_CALLS
static inline walzhik_reply walzhik_earlywood_indices_lent(const int32_t *breaks, size_t breaks_len,
                                                           const int32_t *degrees, size_t degrees_len,
                                                           const int32_t *orders, size_t orders_len,
                                                           const int32_t *coefs, size_t coefs_len, int32_t first,
                                                           const int32_t *widths, size_t widths_len, int64_t *num,
                                                           size_t num_len, int64_t *den, size_t den_len,
                                                           int32_t *values, size_t values_len, int64_t *indices,
                                                           size_t indices_len)
{
    return walzhik_earlywood_indices(WALZHIK_LEND_(const int32_t, breaks), WALZHIK_LEND_(const int32_t, degrees),
                                     WALZHIK_LEND_(const int32_t, orders), WALZHIK_LEND_(const int32_t, coefs), first,
                                     WALZHIK_LEND_(const int32_t, widths), WALZHIK_LEND_(int64_t, num),
                                     WALZHIK_LEND_(int64_t, den), WALZHIK_LEND_(int32_t, values),
                                     WALZHIK_LEND_(int64_t, indices));
}
#define walzhik_earlywood_indices walzhik_earlywood_indices_lent

static inline walzhik_reply walzhik_latewood_indices_lent(const int32_t *breaks, size_t breaks_len,
                                                          const int32_t *degrees, size_t degrees_len,
                                                          const int32_t *orders, size_t orders_len,
                                                          const int32_t *coefs, size_t coefs_len, int32_t first,
                                                          const int32_t *widths, size_t widths_len, int64_t *num,
                                                          size_t num_len, int64_t *den, size_t den_len, int32_t *values,
                                                          size_t values_len, int64_t *indices, size_t indices_len)
{
    return walzhik_latewood_indices(WALZHIK_LEND_(const int32_t, breaks), WALZHIK_LEND_(const int32_t, degrees),
                                    WALZHIK_LEND_(const int32_t, orders), WALZHIK_LEND_(const int32_t, coefs), first,
                                    WALZHIK_LEND_(const int32_t, widths), WALZHIK_LEND_(int64_t, num),
                                    WALZHIK_LEND_(int64_t, den), WALZHIK_LEND_(int32_t, values),
                                    WALZHIK_LEND_(int64_t, indices));
}
#define walzhik_latewood_indices walzhik_latewood_indices_lent

static inline walzhik_reply walzhik_earlywood_ring_lines_lent(const uint8_t *name, size_t name_len, int32_t first,
                                                              const int32_t *widths, size_t widths_len,
                                                              const int32_t *values, size_t values_len,
                                                              const int64_t *indices, size_t indices_len, uint8_t *out,
                                                              size_t out_len)
{
    return walzhik_earlywood_ring_lines(WALZHIK_LEND_(const uint8_t, name), first, WALZHIK_LEND_(const int32_t, widths),
                                        WALZHIK_LEND_(const int32_t, values), WALZHIK_LEND_(const int64_t, indices),
                                        WALZHIK_LEND_(uint8_t, out));
}
#define walzhik_earlywood_ring_lines walzhik_earlywood_ring_lines_lent

static inline walzhik_reply walzhik_latewood_ring_lines_lent(const uint8_t *name, size_t name_len, int32_t first,
                                                             const int32_t *widths, size_t widths_len,
                                                             const int32_t *values, size_t values_len,
                                                             const int64_t *indices, size_t indices_len, uint8_t *out,
                                                             size_t out_len)
{
    return walzhik_latewood_ring_lines(WALZHIK_LEND_(const uint8_t, name), first, WALZHIK_LEND_(const int32_t, widths),
                                       WALZHIK_LEND_(const int32_t, values), WALZHIK_LEND_(const int64_t, indices),
                                       WALZHIK_LEND_(uint8_t, out));
}
#define walzhik_latewood_ring_lines walzhik_latewood_ring_lines_lent
#endif /* WALZHIK_PROVED_CALLS */

#ifdef __cplusplus
}
#endif

#endif
