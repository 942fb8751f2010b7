/* The calls that take a space and the coefficients of both wood parts: values, ring indices, first reach and pieces. A wood part is
 * told by a flag here and by the call's name in the engine. */
#include "entries.h"
#include "lent.h"

enum { WOOD_PARTS = 2, MOST_ORDINATES = 4, BEFORE_ORDINATES = 3 };

static int is_latewood(SEXP flag)
{
    if (TYPEOF(flag) != LGLSXP || XLENGTH(flag) != 1 || LOGICAL(flag)[0] == NA_LOGICAL)
        Rf_error("an entry point of the package was given a wood part that is neither TRUE nor FALSE");
    return LOGICAL(flag)[0];
}

/* A list of the reply and one value more, which the caller protects. */
static SEXP answered(SEXP reply, const char *name, SEXP value)
{
    const char *const names[] = {"reply", name};
    const SEXP values[] = {reply, value};
    return named_list(2, names, values);
}

SEXP curve(SEXP breaks, SEXP degrees, SEXP orders, SEXP coefs, SEXP positions)
{
    space_lists space = lists_of(breaks, degrees, orders);
    list32 pairs = list_of(coefs), at = list_of(positions);
    weight_buffers weights = lent_weights();
    size_t cells = WOOD_PARTS * at.length;
    int32_t *values = lent(cells, sizeof(int32_t));
    walzhik_reply reply =
        walzhik_curve(space.breaks.entries, space.breaks.length, space.degrees.entries, space.degrees.length,
                      space.orders.entries, space.orders.length, pairs.entries, pairs.length, at.entries, at.length,
                      weights.num, WALZHIK_CELLS, weights.den, WALZHIK_CELLS, values, cells);
    SEXP told = PROTECT(reply_of((double)reply.count, reply.number, reply.place));
    SEXP table = PROTECT(Rf_allocMatrix(INTSXP, WOOD_PARTS, (int)reply.count));
    for (R_xlen_t cell = 0; cell < XLENGTH(table); cell++)
        INTEGER(table)[cell] = values[cell];
    SEXP list = answered(told, "values", table);
    UNPROTECT(2);
    return list;
}

SEXP indices(SEXP breaks, SEXP degrees, SEXP orders, SEXP coefs, SEXP first, SEXP widths, SEXP latewood)
{
    space_lists space = lists_of(breaks, degrees, orders);
    list32 pairs = list_of(coefs), rings = list_of(widths);
    weight_buffers weights = lent_weights();
    size_t cells = WOOD_PARTS * rings.length;
    int32_t *values = lent(cells, sizeof(int32_t));
    int64_t *divided = lent(rings.length, sizeof(int64_t));
    walzhik_reply (*call)(const int32_t *, size_t, const int32_t *, size_t, const int32_t *, size_t, const int32_t *, size_t,
                          int32_t, const int32_t *, size_t, int64_t *, size_t, int64_t *, size_t, int32_t *, size_t,
                          int64_t *, size_t) = is_latewood(latewood) ? walzhik_latewood_indices : walzhik_earlywood_indices;
    walzhik_reply reply =
        call(space.breaks.entries, space.breaks.length, space.degrees.entries, space.degrees.length, space.orders.entries,
             space.orders.length, pairs.entries, pairs.length, one_number(first), rings.entries, rings.length, weights.num,
             WALZHIK_CELLS, weights.den, WALZHIK_CELLS, values, cells, divided, rings.length);
    SEXP told = PROTECT(reply_of((double)reply.count, reply.number, reply.place));
    SEXP given = PROTECT(Rf_allocVector(REALSXP, (R_xlen_t)reply.count));
    for (R_xlen_t ring = 0; ring < XLENGTH(given); ring++)
        REAL(given)[ring] = (double)divided[ring];
    SEXP list = answered(told, "indices", given);
    UNPROTECT(2);
    return list;
}

SEXP reach(SEXP breaks, SEXP degrees, SEXP orders, SEXP coefs, SEXP width, SEXP latewood)
{
    space_lists space = lists_of(breaks, degrees, orders);
    list32 pairs = list_of(coefs);
    weight_buffers weights = lent_weights();
    walzhik_reach (*call)(const int32_t *, size_t, const int32_t *, size_t, const int32_t *, size_t, const int32_t *, size_t,
                          int32_t, int64_t *, size_t, int64_t *, size_t) =
        is_latewood(latewood) ? walzhik_latewood_reach : walzhik_earlywood_reach;
    walzhik_reach found = call(space.breaks.entries, space.breaks.length, space.degrees.entries, space.degrees.length,
                               space.orders.entries, space.orders.length, pairs.entries, pairs.length, one_number(width),
                               weights.num, WALZHIK_CELLS, weights.den, WALZHIK_CELLS);
    SEXP told = PROTECT(reply_of(0, found.number, found.place));
    SEXP position = PROTECT(Rf_ScalarInteger(found.position));
    SEXP list = answered(told, "position", position);
    UNPROTECT(2);
    return list;
}

/* Degree, start, end and four ordinates, those past the degree missing. */
static SEXP piece_numbers(const walzhik_piece *drawn)
{
    const double ordinates[MOST_ORDINATES] = {drawn->o0, drawn->o1, drawn->o2, drawn->o3};
    SEXP numbers = Rf_allocVector(REALSXP, BEFORE_ORDINATES + MOST_ORDINATES);
    double *cells = REAL(numbers);
    *cells++ = drawn->degree;
    *cells++ = drawn->start;
    *cells++ = drawn->end;
    for (uint32_t ordinate = 0; ordinate < MOST_ORDINATES; ordinate++)
        *cells++ = ordinate <= drawn->degree ? ordinates[ordinate] : NA_REAL;
    return numbers;
}

SEXP piece(SEXP breaks, SEXP degrees, SEXP orders, SEXP coefs, SEXP segment, SEXP latewood)
{
    space_lists space = lists_of(breaks, degrees, orders);
    list32 pairs = list_of(coefs);
    weight_buffers weights = lent_weights();
    int32_t named = one_number(segment);
    if (named < 0)
        Rf_error("an entry point of the package was given a segment below 0");
    walzhik_piece (*call)(const int32_t *, size_t, const int32_t *, size_t, const int32_t *, size_t, const int32_t *, size_t,
                          uint32_t, int64_t *, size_t, int64_t *, size_t) =
        is_latewood(latewood) ? walzhik_latewood_piece : walzhik_earlywood_piece;
    walzhik_piece drawn = call(space.breaks.entries, space.breaks.length, space.degrees.entries, space.degrees.length,
                               space.orders.entries, space.orders.length, pairs.entries, pairs.length, (uint32_t)named,
                               weights.num, WALZHIK_CELLS, weights.den, WALZHIK_CELLS);
    SEXP told = PROTECT(reply_of(0, drawn.number, drawn.place));
    SEXP numbers = PROTECT(piece_numbers(&drawn));
    SEXP list = answered(told, "piece", numbers);
    UNPROTECT(2);
    return list;
}
