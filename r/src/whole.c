/* R's numbers as 32-bit whole numbers, or what keeps them from being such. R's integers hold all 32-bit numbers but the least,
 * which is R's NA. Nothing is rounded, and no vector is copied before its length is known to be small enough; vectors that R
 * works out as they are read, as 1:n, are read in blocks. */
#include "entries.h"
#include "lent.h"

#include <math.h>

enum { BLOCK = 1024 };

/* The fault's kind, and the entry where it is, counted from 1 as R does. */
static SEXP fault(const char *kind, double entry, double value)
{
    static const char *const names[] = {"kind", "entry", "value"};
    SEXP values[COUNT(names)];
    values[0] = PROTECT(Rf_mkString(kind));
    values[1] = PROTECT(Rf_ScalarReal(entry));
    values[2] = PROTECT(Rf_ScalarReal(value));
    SEXP list = named_list(COUNT(names), names, values);
    UNPROTECT(COUNT(names));
    return list;
}

static const char *number_fault(double number)
{
    if (ISNAN(number))
        return "missing";
    if (!R_FINITE(number) || fabs(number) > INT32_MAX)
        return "large";
    return number == floor(number) ? NULL : "fraction";
}

static SEXP from_doubles(SEXP vector)
{
    R_xlen_t length = XLENGTH(vector);
    SEXP whole = PROTECT(Rf_allocVector(INTSXP, length));
    int *cells = length > 0 ? INTEGER(whole) : NULL;
    double block[BLOCK];
    for (R_xlen_t start = 0; start < length; start += BLOCK) {
        R_xlen_t count = REAL_GET_REGION(vector, start, BLOCK, block);
        for (R_xlen_t entry = 0; entry < count; entry++) {
            const char *kind = number_fault(block[entry]);
            if (kind != NULL) {
                UNPROTECT(1);
                return fault(kind, (double)(start + entry) + 1, block[entry]);
            }
            cells[start + entry] = (int)block[entry];
        }
        look_up((size_t)start);
    }
    UNPROTECT(1);
    return whole;
}

static SEXP from_integers(SEXP vector)
{
    R_xlen_t length = XLENGTH(vector);
    int block[BLOCK];
    for (R_xlen_t start = 0; start < length; start += BLOCK) {
        R_xlen_t count = INTEGER_GET_REGION(vector, start, BLOCK, block);
        for (R_xlen_t entry = 0; entry < count; entry++)
            if (block[entry] == NA_INTEGER)
                return fault("missing", (double)(start + entry) + 1, NA_REAL);
        look_up((size_t)start);
    }
    return vector;
}

SEXP whole_numbers(SEXP vector, SEXP most)
{
    if (vector == R_NilValue)
        return fault("null", NA_REAL, NA_REAL);
    if (Rf_isFactor(vector))
        return fault("factor", NA_REAL, NA_REAL);
    if (Rf_isObject(vector))
        return fault("class", NA_REAL, NA_REAL);
    if (TYPEOF(vector) != INTSXP && TYPEOF(vector) != REALSXP)
        return fault("type", NA_REAL, NA_REAL);
    if ((double)XLENGTH(vector) > Rf_asReal(most))
        return fault("long", NA_REAL, (double)XLENGTH(vector));
    return TYPEOF(vector) == INTSXP ? from_integers(vector) : from_doubles(vector);
}
