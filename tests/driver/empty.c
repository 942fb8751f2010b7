/* Empty lists as null pointers, as an empty std::vector gives them. It is linked with the engine, whose answers it looks at, and with
 * nulls.c, which stops where a call gets a null pointer. It says what is wrong, and ends with 0 where nothing is. */

#include <stdio.h>
#include <string.h>

#include "walzhik_indices.h"

static int faults;

static void check(const char *name, uint32_t number, uint32_t wanted)
{
    if (number != wanted) {
        printf("%s: %u, not %u\n", name, (unsigned)number, (unsigned)wanted);
        faults++;
    }
}

#define NO_LIST NULL, 0
#define NO_SPACE NO_LIST, NO_LIST, NO_LIST
#define NO_WEIGHTS NO_LIST, NO_LIST

static void check_empty_calls(void)
{
    const uint32_t is_short = WALZHIK_SHORT_BUFFER;
    check("build", walzhik_build(NO_SPACE, NO_WEIGHTS).number, is_short);
    check("curve", walzhik_curve(NO_SPACE, NO_LIST, NO_LIST, NO_WEIGHTS, NO_LIST).number, is_short);
    check("earlywood_reach", walzhik_earlywood_reach(NO_SPACE, NO_LIST, 1, NO_WEIGHTS).number, is_short);
    check("latewood_reach", walzhik_latewood_reach(NO_SPACE, NO_LIST, 1, NO_WEIGHTS).number, is_short);
    check("earlywood_piece", walzhik_earlywood_piece(NO_SPACE, NO_LIST, 0, NO_WEIGHTS).number, is_short);
    check("latewood_piece", walzhik_latewood_piece(NO_SPACE, NO_LIST, 0, NO_WEIGHTS).number, is_short);
    check("coefficients", walzhik_coefficients(NO_SPACE, NO_LIST, NO_WEIGHTS, NO_WEIGHTS).number, is_short);
    check("earlywood_indices",
          walzhik_earlywood_indices(NO_SPACE, NO_LIST, 0, NO_LIST, NO_WEIGHTS, NO_LIST, NO_LIST).number, is_short);
    check("latewood_indices",
          walzhik_latewood_indices(NO_SPACE, NO_LIST, 0, NO_LIST, NO_WEIGHTS, NO_LIST, NO_LIST).number, is_short);
    check("earlywood_ring_lines", walzhik_earlywood_ring_lines(NO_LIST, 0, NO_LIST, NO_LIST, NO_LIST, NO_LIST).number,
          WALZHIK_LENGTHS);
    check("latewood_ring_lines", walzhik_latewood_ring_lines(NO_LIST, 0, NO_LIST, NO_LIST, NO_LIST, NO_LIST).number,
          WALZHIK_LENGTHS);
    check("tucson_read", walzhik_tucson_read(NO_LIST, NO_LIST, NO_LIST, NO_LIST, NO_LIST).number, WALZHIK_ANSWER);
    check("tucson_clean", walzhik_tucson_clean(NO_LIST, WALZHIK_NO_HEADER, WALZHIK_NO_UNIT, NO_LIST, NO_LIST, NO_LIST).number,
          WALZHIK_ANSWER);
    check("tucson_write", walzhik_tucson_write(NO_LIST, NO_LIST, NO_LIST, NO_LIST, NO_LIST).number, WALZHIK_ANSWER);
}

/* One segment has no joins, and no positions need no values. */
static void check_one_segment(void)
{
    static int64_t num[WALZHIK_CELLS], den[WALZHIK_CELLS];
    const int32_t breaks[] = {0, 9}, degrees[] = {1}, coefs[] = {900, 400, 500, 300};
    walzhik_reply reply = walzhik_curve(breaks, 2, degrees, 1, NO_LIST, coefs, 4, NO_LIST, num, WALZHIK_CELLS, den,
                                        WALZHIK_CELLS, NO_LIST);
    check("a curve without joins and positions", reply.number, WALZHIK_ANSWER);
}

int main(void)
{
    check_empty_calls();
    check_one_segment();
    check("the version's text", strchr(WALZHIK_VERSION, '.') != NULL, 1);
    check("the version's first number", (uint32_t)(WALZHIK_VERSION[0] - '0'), WALZHIK_VERSION_MAJOR);
    return faults != 0;
}
