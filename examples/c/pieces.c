/* The pieces of case W1's earlywood curve as SVG path commands, from C: one piece a line. */
#include <stdio.h>

#include "walzhik.h"

/* Where ordinate t of a piece of degree p stands between its ends. */
static double at(walzhik_piece piece, unsigned t) { return piece.start + (piece.end - piece.start) * t / piece.degree; }

int main(void) {
    const int32_t breaks[] = {0, 1, 3}, degrees[] = {2, 2}, orders[] = {1};
    const int32_t coefs[] = {0, 0, 100, 100, 0, 0, 0, 0}; /* earlywood and latewood of each row */
    static int64_t num[WALZHIK_CELLS], den[WALZHIK_CELLS];

    for (uint32_t segment = 0; segment < 2; segment++) {
        walzhik_piece piece = walzhik_earlywood_piece(breaks, 3, degrees, 2, orders, 1, coefs, 8, segment, num,
                                                      WALZHIK_CELLS, den, WALZHIK_CELLS);
        if (piece.number != 0) {
            fprintf(stderr, "refused: %u at %u\n", (unsigned)piece.number, (unsigned)piece.place);
            return 1;
        }
        const double ordinates[] = {piece.o0, piece.o1, piece.o2, piece.o3};
        printf("M %g %.15g %c", piece.start, ordinates[0], "LQC"[piece.degree - 1]);
        for (unsigned t = 1; t <= piece.degree; t++)
            printf(" %g %.15g", at(piece, t), ordinates[t]);
        putchar('\n');
    }
    return 0;
}
