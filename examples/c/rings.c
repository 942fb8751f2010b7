/* From a Tucson text to ring indices, in C: reads the text on standard input and divides each width by the earlywood curve of a
 * site, whose breakpoints are years. Prints name,year,index for each ring, -1 where it is absent; 1000 is a ring as wide as the
 * curve says. */
#include "standard_input.h"
#include "walzhik_indices.h"

enum { NAME = 8, LEAST_SERIES = 19, LEAST_WIDTH = 6 }; /* bytes */

static int64_t num[WALZHIK_CELLS], den[WALZHIK_CELLS];

static walzhik_reply checked(walzhik_reply r) {
    if (r.number != 0) {
        fprintf(stderr, "refused: %u at %u\n", (unsigned)r.number, (unsigned)r.place);
        exit(1);
    }
    return r;
}

int main(void) {
    /* the curve: a cubic while the tree is young, then a quadratic; earlywood and latewood of each row */
    const int32_t breaks[] = {1890, 1905, 1945}, degrees[] = {3, 2}, orders[] = {1};
    const int32_t coefs[] = {2600, 600, 2200, 500, 1500, 400, 1100, 300, 1000, 300};
    standard_text text = read_standard_input();
    size_t most = text.length / LEAST_SERIES, most_widths = text.length / LEAST_WIDTH, series;
    uint8_t *names = cells_for(most, NAME);
    int32_t *years = cells_for(most, sizeof *years), *widths = cells_for(most_widths, sizeof *widths);
    uint32_t *counts = cells_for(most, sizeof *counts);
    int32_t *values = cells_for(2 * most_widths, sizeof *values);
    int64_t *indices = cells_for(most_widths, sizeof *indices);

    series = checked(walzhik_tucson_read(text.bytes, text.length, names, NAME * most, years, most, counts, most, widths,
                                         most_widths)).count;
    const int32_t *measured = widths;
    for (size_t k = 0; k < series; k++) {
        checked(walzhik_earlywood_indices(breaks, 3, degrees, 2, orders, 1, coefs, 10, years[k], measured, counts[k], num,
                                          WALZHIK_CELLS, den, WALZHIK_CELLS, values, 2 * most_widths, indices, most_widths));
        for (uint32_t i = 0; i < counts[k]; i++)
            printf("%.8s,%d,%lld\n", (const char *)names + NAME * k, (int)(years[k] + (int32_t)i), (long long)indices[i]);
        measured += counts[k];
    }
    return 0;
}
