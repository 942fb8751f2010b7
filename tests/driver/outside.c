/* Not the engine: calls that read one cell outside what they are lent, so that
 * tests/outside.sh can show that such a read is seen. The environment names
 * the argument, numbered from 0 in the order of the header, and the side. */

#include <stdlib.h>
#include <string.h>

#define WALZHIK_PROVED_CALLS /* the calls themselves, without the header\'s functions around them */
#include "walzhik_indices.h"

/* Reads the cell after argument `at` where the side is "after", before it where it is "before". */
static void look_outside(int at, const volatile void *block, size_t length, size_t cell_size)
{
    const char *argument = getenv("OUTSIDE_ARGUMENT"), *side = getenv("OUTSIDE_SIDE");
    if (argument == NULL || side == NULL || atoi(argument) != at)
        return;
    const volatile unsigned char *bytes = block;
    if (strcmp(side, "after") == 0)
        (void)bytes[length * cell_size];
    if (strcmp(side, "before") == 0)
        (void)*(bytes - 1);
}

walzhik_reply walzhik_build(const int32_t *breaks, size_t breaks_len, const int32_t *degrees, size_t degrees_len,
                            const int32_t *orders, size_t orders_len, int64_t *num, size_t num_len, int64_t *den,
                            size_t den_len)
{
    look_outside(0, breaks, breaks_len, sizeof *breaks);
    look_outside(1, degrees, degrees_len, sizeof *degrees);
    look_outside(2, orders, orders_len, sizeof *orders);
    look_outside(3, num, num_len, sizeof *num);
    look_outside(4, den, den_len, sizeof *den);
    return (walzhik_reply){0, 0, 0};
}

walzhik_reply walzhik_curve(const int32_t *breaks, size_t breaks_len, const int32_t *degrees, size_t degrees_len,
                            const int32_t *orders, size_t orders_len, const int32_t *coefs, size_t coefs_len,
                            const int32_t *positions, size_t positions_len, int64_t *num, size_t num_len, int64_t *den,
                            size_t den_len, int32_t *values, size_t values_len)
{
    look_outside(0, breaks, breaks_len, sizeof *breaks);
    look_outside(1, degrees, degrees_len, sizeof *degrees);
    look_outside(2, orders, orders_len, sizeof *orders);
    look_outside(3, coefs, coefs_len, sizeof *coefs);
    look_outside(4, positions, positions_len, sizeof *positions);
    look_outside(5, num, num_len, sizeof *num);
    look_outside(6, den, den_len, sizeof *den);
    look_outside(7, values, values_len, sizeof *values);
    return (walzhik_reply){0, 0, 0};
}

static walzhik_reply look_at_rings(const int32_t *breaks, size_t breaks_len, const int32_t *degrees, size_t degrees_len,
                                   const int32_t *orders, size_t orders_len, const int32_t *coefs, size_t coefs_len,
                                   const int32_t *widths, size_t widths_len, int64_t *num, size_t num_len, int64_t *den,
                                   size_t den_len, int32_t *values, size_t values_len, int64_t *indices,
                                   size_t indices_len)
{
    look_outside(0, breaks, breaks_len, sizeof *breaks);
    look_outside(1, degrees, degrees_len, sizeof *degrees);
    look_outside(2, orders, orders_len, sizeof *orders);
    look_outside(3, coefs, coefs_len, sizeof *coefs);
    look_outside(4, widths, widths_len, sizeof *widths);
    look_outside(5, num, num_len, sizeof *num);
    look_outside(6, den, den_len, sizeof *den);
    look_outside(7, values, values_len, sizeof *values);
    look_outside(8, indices, indices_len, sizeof *indices);
    return (walzhik_reply){0, 0, 0};
}

walzhik_reply walzhik_earlywood_indices(const int32_t *breaks, size_t breaks_len, const int32_t *degrees, size_t degrees_len,
                                        const int32_t *orders, size_t orders_len, const int32_t *coefs, size_t coefs_len,
                                        int32_t first, const int32_t *widths, size_t widths_len, int64_t *num,
                                        size_t num_len, int64_t *den, size_t den_len, int32_t *values, size_t values_len,
                                        int64_t *indices, size_t indices_len)
{
    (void)first;
    return look_at_rings(breaks, breaks_len, degrees, degrees_len, orders, orders_len, coefs, coefs_len, widths, widths_len,
                         num, num_len, den, den_len, values, values_len, indices, indices_len);
}

walzhik_reply walzhik_latewood_indices(const int32_t *breaks, size_t breaks_len, const int32_t *degrees, size_t degrees_len,
                                       const int32_t *orders, size_t orders_len, const int32_t *coefs, size_t coefs_len,
                                       int32_t first, const int32_t *widths, size_t widths_len, int64_t *num,
                                       size_t num_len, int64_t *den, size_t den_len, int32_t *values, size_t values_len,
                                       int64_t *indices, size_t indices_len)
{
    (void)first;
    return look_at_rings(breaks, breaks_len, degrees, degrees_len, orders, orders_len, coefs, coefs_len, widths, widths_len,
                         num, num_len, den, den_len, values, values_len, indices, indices_len);
}

static walzhik_reply look_at_lines(const uint8_t *name, size_t name_len, const int32_t *widths, size_t widths_len,
                                   const int32_t *values, size_t values_len, const int64_t *indices, size_t indices_len,
                                   uint8_t *out, size_t out_len)
{
    look_outside(0, name, name_len, sizeof *name);
    look_outside(1, widths, widths_len, sizeof *widths);
    look_outside(2, values, values_len, sizeof *values);
    look_outside(3, indices, indices_len, sizeof *indices);
    look_outside(4, out, out_len, sizeof *out);
    return (walzhik_reply){0, 0, 0};
}

walzhik_reply walzhik_earlywood_ring_lines(const uint8_t *name, size_t name_len, int32_t first, const int32_t *widths,
                                           size_t widths_len, const int32_t *values, size_t values_len,
                                           const int64_t *indices, size_t indices_len, uint8_t *out, size_t out_len)
{
    (void)first;
    return look_at_lines(name, name_len, widths, widths_len, values, values_len, indices, indices_len, out, out_len);
}

walzhik_reply walzhik_latewood_ring_lines(const uint8_t *name, size_t name_len, int32_t first, const int32_t *widths,
                                          size_t widths_len, const int32_t *values, size_t values_len,
                                          const int64_t *indices, size_t indices_len, uint8_t *out, size_t out_len)
{
    (void)first;
    return look_at_lines(name, name_len, widths, widths_len, values, values_len, indices, indices_len, out, out_len);
}

walzhik_reply walzhik_tucson_read(const uint8_t *text, size_t text_len, uint8_t *names, size_t names_len, int32_t *years,
                                  size_t years_len, uint32_t *counts, size_t counts_len, int32_t *widths, size_t widths_len)
{
    look_outside(0, text, text_len, sizeof *text);
    look_outside(1, names, names_len, sizeof *names);
    look_outside(2, years, years_len, sizeof *years);
    look_outside(3, counts, counts_len, sizeof *counts);
    look_outside(4, widths, widths_len, sizeof *widths);
    return (walzhik_reply){0, 0, 0};
}

walzhik_cleaned walzhik_tucson_clean(const uint8_t *text, size_t text_len, uint32_t header, uint32_t unit, uint8_t *out,
                                     size_t out_len, size_t *lines, size_t lines_len, size_t *notes, size_t notes_len)
{
    (void)header;
    (void)unit;
    look_outside(0, text, text_len, sizeof *text);
    look_outside(1, out, out_len, sizeof *out);
    look_outside(2, lines, lines_len, sizeof *lines);
    look_outside(3, notes, notes_len, sizeof *notes);
    return (walzhik_cleaned){0, 0, 0, 0, 0};
}

walzhik_reply walzhik_tucson_write(const uint8_t *names, size_t names_len, const int32_t *years, size_t years_len,
                                   const uint32_t *counts, size_t counts_len, const int32_t *widths, size_t widths_len,
                                   uint8_t *text, size_t text_len)
{
    look_outside(0, names, names_len, sizeof *names);
    look_outside(1, years, years_len, sizeof *years);
    look_outside(2, counts, counts_len, sizeof *counts);
    look_outside(3, widths, widths_len, sizeof *widths);
    look_outside(4, text, text_len, sizeof *text);
    return (walzhik_reply){0, 0, 0};
}

/* What the reach and piece calls are lent, and the first six arguments of walzhik_coefficients. */
static void look_at_space(const int32_t *breaks, size_t breaks_len, const int32_t *degrees, size_t degrees_len,
                          const int32_t *orders, size_t orders_len, const int32_t *coefs, size_t coefs_len, int64_t *num,
                          size_t num_len, int64_t *den, size_t den_len)
{
    look_outside(0, breaks, breaks_len, sizeof *breaks);
    look_outside(1, degrees, degrees_len, sizeof *degrees);
    look_outside(2, orders, orders_len, sizeof *orders);
    look_outside(3, coefs, coefs_len, sizeof *coefs);
    look_outside(4, num, num_len, sizeof *num);
    look_outside(5, den, den_len, sizeof *den);
}

walzhik_reach walzhik_earlywood_reach(const int32_t *breaks, size_t breaks_len, const int32_t *degrees, size_t degrees_len,
                                   const int32_t *orders, size_t orders_len, const int32_t *coefs, size_t coefs_len,
                                   int32_t width, int64_t *num, size_t num_len, int64_t *den, size_t den_len)
{
    (void)width;
    look_at_space(breaks, breaks_len, degrees, degrees_len, orders, orders_len, coefs, coefs_len, num, num_len, den, den_len);
    return (walzhik_reach){0, 0, 0};
}

walzhik_piece walzhik_earlywood_piece(const int32_t *breaks, size_t breaks_len, const int32_t *degrees, size_t degrees_len,
                                   const int32_t *orders, size_t orders_len, const int32_t *coefs, size_t coefs_len,
                                   uint32_t segment, int64_t *num, size_t num_len, int64_t *den, size_t den_len)
{
    (void)segment;
    look_at_space(breaks, breaks_len, degrees, degrees_len, orders, orders_len, coefs, coefs_len, num, num_len, den, den_len);
    return (walzhik_piece){0};
}

walzhik_reach walzhik_latewood_reach(const int32_t *breaks, size_t breaks_len, const int32_t *degrees, size_t degrees_len,
                                   const int32_t *orders, size_t orders_len, const int32_t *coefs, size_t coefs_len,
                                   int32_t width, int64_t *num, size_t num_len, int64_t *den, size_t den_len)
{
    (void)width;
    look_at_space(breaks, breaks_len, degrees, degrees_len, orders, orders_len, coefs, coefs_len, num, num_len, den, den_len);
    return (walzhik_reach){0, 0, 0};
}

walzhik_piece walzhik_latewood_piece(const int32_t *breaks, size_t breaks_len, const int32_t *degrees, size_t degrees_len,
                                   const int32_t *orders, size_t orders_len, const int32_t *coefs, size_t coefs_len,
                                   uint32_t segment, int64_t *num, size_t num_len, int64_t *den, size_t den_len)
{
    (void)segment;
    look_at_space(breaks, breaks_len, degrees, degrees_len, orders, orders_len, coefs, coefs_len, num, num_len, den, den_len);
    return (walzhik_piece){0};
}

walzhik_reply walzhik_coefficients(const int32_t *breaks, size_t breaks_len, const int32_t *degrees, size_t degrees_len,
                                   const int32_t *orders, size_t orders_len, const int32_t *ordinates, size_t ordinates_len,
                                   int64_t *num, size_t num_len, int64_t *den, size_t den_len, int64_t *coef_num,
                                   size_t coef_num_len, int64_t *coef_den, size_t coef_den_len)
{
    look_at_space(breaks, breaks_len, degrees, degrees_len, orders, orders_len, ordinates, ordinates_len, num, num_len, den,
                  den_len);
    look_outside(6, coef_num, coef_num_len, sizeof *coef_num);
    look_outside(7, coef_den, coef_den_len, sizeof *coef_den);
    return (walzhik_reply){0, 0, 0};
}
