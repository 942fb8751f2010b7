/* The indices of two measured rings against the earlywood curve of case W1, from C: prints ring and index, one pair a line. */
#include <stdio.h>

#include "walzhik_indices.h"

int main(void) {
    const int32_t breaks[] = {0, 1, 3}, degrees[] = {2, 2}, orders[] = {1};
    const int32_t coefs[] = {0, 0, 100, 100, 0, 0, 0, 0}; /* earlywood and latewood of each row */
    const int32_t first = 1, widths[] = {50, 0};           /* ring 2 is absent */
    static int64_t num[WALZHIK_CELLS], den[WALZHIK_CELLS];
    int32_t values[4];
    int64_t indices[2];

    walzhik_reply r = walzhik_earlywood_indices(breaks, 3, degrees, 2, orders, 1, coefs, 8, first, widths, 2, num,
                                                WALZHIK_CELLS, den, WALZHIK_CELLS, values, 4, indices, 2);
    if (r.number != 0) {
        fprintf(stderr, "refused: %u at %u\n", (unsigned)r.number, (unsigned)r.place);
        return 1;
    }
    for (uint64_t k = 0; k < r.count; k++)
        printf("%d,%lld\n", (int)(first + (int32_t)k), (long long)indices[k]);
    return 0;
}
