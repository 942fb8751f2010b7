/* The curves of case W1 from C, each coefficient for both wood parts: prints a position with its two values a line. */
#include <stdio.h>

#include "walzhik.h"

int main(void) {
    const int32_t breaks[] = {0, 1, 3}, degrees[] = {2, 2}, orders[] = {1};
    const int32_t coefs[] = {0, 0, 100, 100, 0, 0, 0, 0}, positions[] = {256, 512};
    static int64_t num[WALZHIK_CELLS], den[WALZHIK_CELLS];
    int32_t values[4];

    walzhik_reply r = walzhik_curve(breaks, 3, degrees, 2, orders, 1, coefs, 8, positions, 2, num, WALZHIK_CELLS, den,
                                    WALZHIK_CELLS, values, 4);
    if (r.number != 0) {
        fprintf(stderr, "refused: %u at %u\n", (unsigned)r.number, (unsigned)r.place);
        return 1;
    }
    for (uint64_t k = 0; k < r.count; k++)
        printf("%d,%d:%d\n", (int)positions[k], (int)values[2 * k], (int)values[2 * k + 1]);
    return 0;
}
