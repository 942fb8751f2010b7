/* Coefficients from local ordinates, from C: a round trip in exact fractions. Coefficients and weights give the ordinates, which
 * are multiplied by their common denominator; from these whole numbers the call gives the coefficients back. Then one ordinate is
 * off by one, which no coefficients give. Prints the list of each step, a line each. */
#include <inttypes.h>
#include <stdio.h>

#include "walzhik.h"

enum { SIDE = 72, ROWS = 6, COLUMNS = 9 };

typedef struct {
    int64_t num, den;
} fraction;

static const int32_t breaks[] = {0, 30, 60}, degrees[] = {3, 4}, orders[] = {2};
/* in 256ths of a thousandth of a millimetre */
static const fraction coefs[ROWS] = {{614400, 1}, {537600, 1}, {2304004, 5}, {332800, 1}, {281600, 1}, {230400, 1}};
static int64_t num[WALZHIK_CELLS], den[WALZHIK_CELLS], coef_num[COLUMNS], coef_den[COLUMNS];

static int64_t gcd(int64_t a, int64_t b) { return b == 0 ? (a < 0 ? -a : a) : gcd(b, a % b); }

static fraction lowest(int64_t n, int64_t d) { return (fraction){n / gcd(n, d), d / gcd(n, d)}; }

static fraction add_product(fraction sum, fraction a, fraction b) {
    fraction product = lowest(a.num * b.num, a.den * b.den);
    return lowest(sum.num * product.den + product.num * sum.den, sum.den * product.den);
}

/* The rows' combination: the exact ordinate of a column. */
static fraction combined(int column) {
    fraction sum = {0, 1};
    for (int row = 0; row < ROWS; row++) {
        int cell = SIDE * row + column;
        sum = add_product(sum, coefs[row], (fraction){num[cell], den[cell]});
    }
    return sum;
}

static void print_fraction(fraction q) {
    printf(" %" PRId64, q.num);
    if (q.den != 1)
        printf("/%" PRId64, q.den);
}

static walzhik_reply recover(const int32_t *ordinates) {
    return walzhik_coefficients(breaks, 3, degrees, 2, orders, 1, ordinates, COLUMNS, num, WALZHIK_CELLS, den, WALZHIK_CELLS,
                                coef_num, COLUMNS, coef_den, COLUMNS);
}

static int refused(walzhik_reply r) {
    if (r.number != 0)
        fprintf(stderr, "refused: %u at %u\n", (unsigned)r.number, (unsigned)r.place);
    return r.number != 0;
}

int main(void) {
    fraction exact[COLUMNS];
    int32_t ordinates[COLUMNS];
    int64_t scale = 1;

    if (refused(walzhik_build(breaks, 3, degrees, 2, orders, 1, num, WALZHIK_CELLS, den, WALZHIK_CELLS)))
        return 1;
    for (int k = 0; k < COLUMNS; k++) {
        exact[k] = combined(k);
        scale = scale / gcd(scale, exact[k].den) * exact[k].den;
    }
    printf("coefficients:");
    for (int i = 0; i < ROWS; i++)
        print_fraction(coefs[i]);
    printf("\nordinates:");
    for (int k = 0; k < COLUMNS; k++)
        print_fraction(exact[k]);
    printf("\ntimes %" PRId64 ":", scale);
    for (int k = 0; k < COLUMNS; k++) {
        ordinates[k] = (int32_t)(exact[k].num * (scale / exact[k].den));
        printf(" %" PRId32, ordinates[k]);
    }

    walzhik_reply r = recover(ordinates);
    if (refused(r))
        return 1;
    printf("\nrecovered:");
    for (uint64_t i = 0; i < r.count; i++)
        print_fraction((fraction){coef_num[i], coef_den[i]});
    printf("\nover %" PRId64 ":", scale);
    for (uint64_t i = 0; i < r.count; i++)
        print_fraction(lowest(coef_num[i], coef_den[i] * scale));

    ordinates[4]++;
    r = recover(ordinates);
    if (r.number != 19)
        return 1;
    printf("\none off by one: refused %u at %u: join %u isn't met, so no coefficients give these ordinates\n", (unsigned)r.number,
           (unsigned)r.place, (unsigned)r.place);
    return 0;
}
