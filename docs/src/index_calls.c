/* The index calls of docs/src/benchmark.py from C: reads how often, the first ring and five lists (breakpoints, degrees, orders,
 * coefficients, widths; a count before each), makes the calls and prints the processor's seconds that they took, then the indices. */
#include <inttypes.h>
#include <stdio.h>
#include <stdlib.h>
#include <time.h>

#include "walzhik.h"
#ifdef __has_include
#if __has_include("walzhik_indices.h")
#include "walzhik_indices.h"
#endif
#endif

enum { LISTS = 5, MOST = 8192 };

static int32_t lists[LISTS][MOST], values[2 * MOST];
static int64_t num[WALZHIK_CELLS], den[WALZHIK_CELLS], indices[MOST];
static size_t counts[LISTS];

static long read_number(void) {
    long number;
    if (scanf("%ld", &number) != 1)
        exit(2);
    return number;
}

static void read_list(int list) {
    counts[list] = (size_t)read_number();
    if (counts[list] > MOST)
        exit(2);
    for (size_t i = 0; i < counts[list]; i++)
        lists[list][i] = (int32_t)read_number();
}

static double now(void) { return (double)clock() / CLOCKS_PER_SEC; }

int main(void) {
    long calls = read_number();
    int32_t first = (int32_t)read_number();
    for (int list = 0; list < LISTS; list++)
        read_list(list);
    double start = now();
    for (long call = 0; call < calls; call++) {
        walzhik_reply r = walzhik_earlywood_indices(lists[0], counts[0], lists[1], counts[1], lists[2], counts[2], lists[3],
                                                    counts[3], first, lists[4], counts[4], num, WALZHIK_CELLS, den,
                                                    WALZHIK_CELLS, values, 2 * MOST, indices, MOST);
        if (r.number != 0)
            return 1;
    }
    printf("%.9f\n", now() - start);
    for (size_t i = 0; i < counts[4]; i++)
        printf("%" PRId64 "\n", indices[i]);
    return 0;
}
