/* Tucson decadal files from C: reads a text on standard input, prints a line name,first year,count for each series, then the same
 * series as they are written, in thousandths. */
#include "standard_input.h"
#include "walzhik.h"

enum { NAME = 8, LEAST_SERIES = 19, LEAST_WIDTH = 6 }; /* bytes */

static walzhik_reply checked(walzhik_reply r) {
    if (r.number != 0) {
        fprintf(stderr, "refused: %u at %u\n", (unsigned)r.number, (unsigned)r.place);
        exit(1);
    }
    return r;
}

int main(void) {
    standard_text text = read_standard_input();
    size_t most = text.length / LEAST_SERIES, most_widths = text.length / LEAST_WIDTH, series, length, total = 0;
    uint8_t *names = cells_for(most, NAME), *written = cells_for(text.length, 1);
    int32_t *years = cells_for(most, sizeof *years), *widths = cells_for(most_widths, sizeof *widths);
    uint32_t *counts = cells_for(most, sizeof *counts);

    series = checked(walzhik_tucson_read(text.bytes, text.length, names, NAME * most, years, most, counts, most, widths,
                                         most_widths)).count;
    for (size_t k = 0; k < series; k++) {
        printf("%.8s,%d,%u\n", (const char *)names + NAME * k, (int)years[k], (unsigned)counts[k]);
        total += counts[k];
    }
    length = checked(walzhik_tucson_write(names, NAME * series, years, series, counts, series, widths, total, written,
                                          text.length)).count;
    fwrite(written, 1, length, stdout);
    return 0;
}
