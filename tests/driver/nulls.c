/* Not the engine: calls that stop the program where they are lent a null pointer, for empty.c. */

#include <stdio.h>
#include <stdlib.h>

#define WALZHIK_PROVED_CALLS
#include "walzhik_indices.h"

static void ask(const char *name, const void *pointer)
{
    if (pointer == NULL) {
        printf("%s got a null pointer\n", name);
        exit(1);
    }
}

walzhik_reply walzhik_build(const int32_t *breaks, size_t breaks_len, const int32_t *degrees, size_t degrees_len,
                            const int32_t *orders, size_t orders_len, int64_t *num, size_t num_len, int64_t *den,
                            size_t den_len)
{
    ask("build", breaks);
    ask("build", degrees);
    ask("build", orders);
    ask("build", num);
    ask("build", den);
    (void)degrees_len;
    (void)orders_len;
    (void)num_len;
    (void)den_len;
    return (walzhik_reply){0, breaks_len == 0, 0};
}

walzhik_reply walzhik_curve(const int32_t *breaks, size_t breaks_len, const int32_t *degrees, size_t degrees_len,
                            const int32_t *orders, size_t orders_len, const int32_t *coefs, size_t coefs_len,
                            const int32_t *positions, size_t positions_len, int64_t *num, size_t num_len, int64_t *den,
                            size_t den_len, int32_t *values, size_t values_len)
{
    ask("curve", breaks);
    ask("curve", degrees);
    ask("curve", orders);
    ask("curve", coefs);
    ask("curve", positions);
    ask("curve", num);
    ask("curve", den);
    ask("curve", values);
    (void)degrees_len;
    (void)orders_len;
    (void)coefs_len;
    (void)positions_len;
    (void)num_len;
    (void)den_len;
    (void)values_len;
    return (walzhik_reply){0, breaks_len == 0, 0};
}

walzhik_reach walzhik_earlywood_reach(const int32_t *breaks, size_t breaks_len, const int32_t *degrees, size_t degrees_len,
                                      const int32_t *orders, size_t orders_len, const int32_t *coefs, size_t coefs_len,
                                      int32_t width, int64_t *num, size_t num_len, int64_t *den, size_t den_len)
{
    ask("earlywood_reach", breaks);
    ask("earlywood_reach", degrees);
    ask("earlywood_reach", orders);
    ask("earlywood_reach", coefs);
    ask("earlywood_reach", num);
    ask("earlywood_reach", den);
    (void)degrees_len;
    (void)orders_len;
    (void)coefs_len;
    (void)width;
    (void)num_len;
    (void)den_len;
    return (walzhik_reach){0, breaks_len == 0, 0};
}

walzhik_reach walzhik_latewood_reach(const int32_t *breaks, size_t breaks_len, const int32_t *degrees, size_t degrees_len,
                                     const int32_t *orders, size_t orders_len, const int32_t *coefs, size_t coefs_len,
                                     int32_t width, int64_t *num, size_t num_len, int64_t *den, size_t den_len)
{
    ask("latewood_reach", breaks);
    ask("latewood_reach", degrees);
    ask("latewood_reach", orders);
    ask("latewood_reach", coefs);
    ask("latewood_reach", num);
    ask("latewood_reach", den);
    (void)degrees_len;
    (void)orders_len;
    (void)coefs_len;
    (void)width;
    (void)num_len;
    (void)den_len;
    return (walzhik_reach){0, breaks_len == 0, 0};
}

walzhik_piece walzhik_earlywood_piece(const int32_t *breaks, size_t breaks_len, const int32_t *degrees, size_t degrees_len,
                                      const int32_t *orders, size_t orders_len, const int32_t *coefs, size_t coefs_len,
                                      uint32_t segment, int64_t *num, size_t num_len, int64_t *den, size_t den_len)
{
    ask("earlywood_piece", breaks);
    ask("earlywood_piece", degrees);
    ask("earlywood_piece", orders);
    ask("earlywood_piece", coefs);
    ask("earlywood_piece", num);
    ask("earlywood_piece", den);
    (void)degrees_len;
    (void)orders_len;
    (void)coefs_len;
    (void)segment;
    (void)num_len;
    (void)den_len;
    return (walzhik_piece){breaks_len == 0, 0, 0, 0, 0, 0, 0, 0, 0, 0};
}

walzhik_piece walzhik_latewood_piece(const int32_t *breaks, size_t breaks_len, const int32_t *degrees, size_t degrees_len,
                                     const int32_t *orders, size_t orders_len, const int32_t *coefs, size_t coefs_len,
                                     uint32_t segment, int64_t *num, size_t num_len, int64_t *den, size_t den_len)
{
    ask("latewood_piece", breaks);
    ask("latewood_piece", degrees);
    ask("latewood_piece", orders);
    ask("latewood_piece", coefs);
    ask("latewood_piece", num);
    ask("latewood_piece", den);
    (void)degrees_len;
    (void)orders_len;
    (void)coefs_len;
    (void)segment;
    (void)num_len;
    (void)den_len;
    return (walzhik_piece){breaks_len == 0, 0, 0, 0, 0, 0, 0, 0, 0, 0};
}

walzhik_reply walzhik_coefficients(const int32_t *breaks, size_t breaks_len, const int32_t *degrees, size_t degrees_len,
                                   const int32_t *orders, size_t orders_len, const int32_t *ordinates, size_t ordinates_len,
                                   int64_t *num, size_t num_len, int64_t *den, size_t den_len, int64_t *coef_num,
                                   size_t coef_num_len, int64_t *coef_den, size_t coef_den_len)
{
    ask("coefficients", breaks);
    ask("coefficients", degrees);
    ask("coefficients", orders);
    ask("coefficients", ordinates);
    ask("coefficients", num);
    ask("coefficients", den);
    ask("coefficients", coef_num);
    ask("coefficients", coef_den);
    (void)degrees_len;
    (void)orders_len;
    (void)ordinates_len;
    (void)num_len;
    (void)den_len;
    (void)coef_num_len;
    (void)coef_den_len;
    return (walzhik_reply){0, breaks_len == 0, 0};
}

walzhik_reply walzhik_tucson_read(const uint8_t *text, size_t text_len, uint8_t *names, size_t names_len, int32_t *years,
                                  size_t years_len, uint32_t *counts, size_t counts_len, int32_t *widths,
                                  size_t widths_len)
{
    ask("tucson_read", text);
    ask("tucson_read", names);
    ask("tucson_read", years);
    ask("tucson_read", counts);
    ask("tucson_read", widths);
    (void)text_len;
    (void)names_len;
    (void)years_len;
    (void)counts_len;
    (void)widths_len;
    return (walzhik_reply){0, 0, 0};
}

walzhik_cleaned walzhik_tucson_clean(const uint8_t *text, size_t text_len, uint32_t header, uint32_t unit, uint8_t *out,
                                     size_t out_len, size_t *lines, size_t lines_len, size_t *notes, size_t notes_len)
{
    ask("tucson_clean", text);
    ask("tucson_clean", out);
    ask("tucson_clean", lines);
    ask("tucson_clean", notes);
    (void)text_len;
    (void)header;
    (void)unit;
    (void)out_len;
    (void)lines_len;
    (void)notes_len;
    return (walzhik_cleaned){0, 0, 0, 0, 0};
}

walzhik_reply walzhik_tucson_write(const uint8_t *names, size_t names_len, const int32_t *years, size_t years_len,
                                   const uint32_t *counts, size_t counts_len, const int32_t *widths, size_t widths_len,
                                   uint8_t *text, size_t text_len)
{
    ask("tucson_write", names);
    ask("tucson_write", years);
    ask("tucson_write", counts);
    ask("tucson_write", widths);
    ask("tucson_write", text);
    (void)names_len;
    (void)years_len;
    (void)counts_len;
    (void)widths_len;
    (void)text_len;
    return (walzhik_reply){0, 0, 0};
}

walzhik_reply walzhik_earlywood_indices(const int32_t *breaks, size_t breaks_len, const int32_t *degrees, size_t degrees_len,
                                        const int32_t *orders, size_t orders_len, const int32_t *coefs, size_t coefs_len,
                                        int32_t first, const int32_t *widths, size_t widths_len, int64_t *num,
                                        size_t num_len, int64_t *den, size_t den_len, int32_t *values, size_t values_len,
                                        int64_t *indices, size_t indices_len)
{
    ask("earlywood_indices", breaks);
    ask("earlywood_indices", degrees);
    ask("earlywood_indices", orders);
    ask("earlywood_indices", coefs);
    ask("earlywood_indices", widths);
    ask("earlywood_indices", num);
    ask("earlywood_indices", den);
    ask("earlywood_indices", values);
    ask("earlywood_indices", indices);
    (void)degrees_len;
    (void)orders_len;
    (void)coefs_len;
    (void)first;
    (void)widths_len;
    (void)num_len;
    (void)den_len;
    (void)values_len;
    (void)indices_len;
    return (walzhik_reply){0, breaks_len == 0, 0};
}

walzhik_reply walzhik_latewood_indices(const int32_t *breaks, size_t breaks_len, const int32_t *degrees, size_t degrees_len,
                                       const int32_t *orders, size_t orders_len, const int32_t *coefs, size_t coefs_len,
                                       int32_t first, const int32_t *widths, size_t widths_len, int64_t *num,
                                       size_t num_len, int64_t *den, size_t den_len, int32_t *values, size_t values_len,
                                       int64_t *indices, size_t indices_len)
{
    ask("latewood_indices", breaks);
    ask("latewood_indices", degrees);
    ask("latewood_indices", orders);
    ask("latewood_indices", coefs);
    ask("latewood_indices", widths);
    ask("latewood_indices", num);
    ask("latewood_indices", den);
    ask("latewood_indices", values);
    ask("latewood_indices", indices);
    (void)degrees_len;
    (void)orders_len;
    (void)coefs_len;
    (void)first;
    (void)widths_len;
    (void)num_len;
    (void)den_len;
    (void)values_len;
    (void)indices_len;
    return (walzhik_reply){0, breaks_len == 0, 0};
}

walzhik_reply walzhik_earlywood_ring_lines(const uint8_t *name, size_t name_len, int32_t first, const int32_t *widths,
                                           size_t widths_len, const int32_t *values, size_t values_len,
                                           const int64_t *indices, size_t indices_len, uint8_t *out, size_t out_len)
{
    ask("earlywood_ring_lines", name);
    ask("earlywood_ring_lines", widths);
    ask("earlywood_ring_lines", values);
    ask("earlywood_ring_lines", indices);
    ask("earlywood_ring_lines", out);
    (void)first;
    (void)widths_len;
    (void)values_len;
    (void)indices_len;
    (void)out_len;
    return (walzhik_reply){0, name_len == 0 ? WALZHIK_LENGTHS : 0, 0};
}

walzhik_reply walzhik_latewood_ring_lines(const uint8_t *name, size_t name_len, int32_t first, const int32_t *widths,
                                          size_t widths_len, const int32_t *values, size_t values_len,
                                          const int64_t *indices, size_t indices_len, uint8_t *out, size_t out_len)
{
    ask("latewood_ring_lines", name);
    ask("latewood_ring_lines", widths);
    ask("latewood_ring_lines", values);
    ask("latewood_ring_lines", indices);
    ask("latewood_ring_lines", out);
    (void)first;
    (void)widths_len;
    (void)values_len;
    (void)indices_len;
    (void)out_len;
    return (walzhik_reply){0, name_len == 0 ? WALZHIK_LENGTHS : 0, 0};
}
