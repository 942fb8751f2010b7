/* Refusals that only a caller in C or Rust can meet, on case W1 unless said otherwise: a values buffer with one cell too few, a
 * measured width over 99,999, a ring where the curve is zero, and a piece of a segment that isn't there; then, of ordinates, one
 * too few, one out of range, and two that make the slopes differ at the join; and a constant curve of 16.384 mm with a segment of
 * one ring beside one of 511. Prints number and place of each, one pair a line. */
#include <stdio.h>

#include "walzhik_indices.h"

static const int32_t breaks[] = {0, 1, 3}, degrees[] = {2, 2}, orders[] = {1};
static const int32_t coefs[] = {0, 0, 100, 100, 0, 0, 0, 0}; /* earlywood and latewood of each row */
static int64_t num[WALZHIK_CELLS], den[WALZHIK_CELLS];
static int32_t values[4];
static int64_t indices[2], coef_num[6], coef_den[6];

static void print_refusal(uint32_t number, uint32_t place) { printf("%u,%u\n", (unsigned)number, (unsigned)place); }

static void print_reply(walzhik_reply r) { print_refusal(r.number, r.place); }

static walzhik_reply rings(int32_t first, const int32_t *widths) {
    return walzhik_earlywood_indices(breaks, 3, degrees, 2, orders, 1, coefs, 8, first, widths, 2, num, WALZHIK_CELLS, den,
                                     WALZHIK_CELLS, values, 4, indices, 2);
}

static walzhik_reply recover(const int32_t *breakpoints, const int32_t *ordinates, size_t count) {
    return walzhik_coefficients(breakpoints, 3, degrees, 2, orders, 1, ordinates, count, num, WALZHIK_CELLS, den, WALZHIK_CELLS,
                                coef_num, 6, coef_den, 6);
}

int main(void) {
    const int32_t positions[] = {256, 512};
    const int32_t wide[] = {50, 100000}, last[] = {50, 50};

    print_reply(walzhik_curve(breaks, 3, degrees, 2, orders, 1, coefs, 8, positions, 2, num, WALZHIK_CELLS, den,
                              WALZHIK_CELLS, values, 3));
    print_reply(rings(1, wide));
    print_reply(rings(2, last)); /* ring 3 is the last breakpoint, where the curve is 0 */

    walzhik_piece piece = walzhik_earlywood_piece(breaks, 3, degrees, 2, orders, 1, coefs, 8, 2, num, WALZHIK_CELLS, den,
                                                  WALZHIK_CELLS);
    print_refusal(piece.number, piece.place);

    const int32_t far[] = {0, 300, 200, 200, 256000001, 0}, bent[] = {0, 300, 201, 201, 0, 0};
    const int32_t uneven[] = {0, 1, 512}, flat[] = {4194304, 4194304, 4194304, 4194304, 4194304, 4194304};
    print_reply(recover(breaks, far, 5));
    print_reply(recover(breaks, far, 6));
    print_reply(recover(breaks, bent, 6));
    print_reply(recover(uneven, flat, 6)); /* a product is 2^31 */
    return 0;
}
