/* When the curves of case W9, with a discontinuity at ring 1, reach some widths, from C: prints width and position, one pair a line. */
#include <stdio.h>

#include "walzhik.h"

int main(void) {
    const int32_t breaks[] = {0, 1, 2}, degrees[] = {1, 1}, orders[] = {-1};
    const int32_t coefs[] = {0, 0, 10, 10, 20, 20, 30, 30}; /* earlywood and latewood of each row */
    const int32_t widths[] = {0, 10, 20, 30, 31};
    static int64_t num[WALZHIK_CELLS], den[WALZHIK_CELLS];

    for (size_t k = 0; k < 5; k++) {
        walzhik_reach r = walzhik_earlywood_reach(breaks, 3, degrees, 2, orders, 1, coefs, 8, widths[k], num, WALZHIK_CELLS,
                                                  den, WALZHIK_CELLS);
        if (r.number == 0)
            printf("%d,%d\n", (int)widths[k], (int)r.position);
        else
            printf("%d,refused %u at %u\n", (int)widths[k], (unsigned)r.number, (unsigned)r.place);
    }
    return 0;
}
