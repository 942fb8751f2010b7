/* R's vectors as the engine's lists and lent buffers. R's own pointer of an empty vector is not aligned, so an empty list is
 * handed on as the address of a number of this file. */
#include "lent.h"

#include <R_ext/Utils.h>

enum { TURNS_BETWEEN_LOOKS = 1 << 16 };

static const int32_t nothing = 0;

list32 list_of(SEXP vector)
{
    if (TYPEOF(vector) != INTSXP)
        Rf_error("an entry point of the package was given a list that is not of type integer");
    list32 list = {&nothing, (size_t)XLENGTH(vector)};
    if (list.length > 0)
        list.entries = INTEGER(vector);
    return list;
}

int32_t one_number(SEXP vector)
{
    list32 list = list_of(vector);
    if (list.length != 1)
        Rf_error("an entry point of the package was given a list in the place of one number");
    return list.entries[0];
}

space_lists lists_of(SEXP breaks, SEXP degrees, SEXP orders)
{
    space_lists lists = {list_of(breaks), list_of(degrees), list_of(orders)};
    return lists;
}

/* R_alloc gives a null pointer for nothing, which is no valid buffer: there is always one cell. */
void *lent(size_t count, size_t size)
{
    return R_alloc(count > 0 ? count : 1, (int)size);
}

weight_buffers lent_weights(void)
{
    weight_buffers weights = {lent(WALZHIK_CELLS, sizeof(int64_t)), lent(WALZHIK_CELLS, sizeof(int64_t))};
    return weights;
}

void look_up(size_t turn)
{
    if (turn % TURNS_BETWEEN_LOOKS == 0)
        R_CheckUserInterrupt();
}

SEXP named_list(int count, const char *const *names, const SEXP *values)
{
    SEXP list = PROTECT(Rf_allocVector(VECSXP, count));
    SEXP labels = PROTECT(Rf_allocVector(STRSXP, count));
    for (int entry = 0; entry < count; entry++) {
        SET_VECTOR_ELT(list, entry, values[entry]);
        SET_STRING_ELT(labels, entry, Rf_mkChar(names[entry]));
    }
    Rf_setAttrib(list, R_NamesSymbol, labels);
    UNPROTECT(2);
    return list;
}

SEXP reply_of(double count, uint32_t number, uint32_t place)
{
    static const char *const names[] = {"count", "number", "place"};
    const double entries[] = {count, (double)number, (double)place};
    SEXP reply = PROTECT(Rf_allocVector(REALSXP, COUNT(names)));
    SEXP labels = PROTECT(Rf_allocVector(STRSXP, COUNT(names)));
    for (int entry = 0; entry < COUNT(names); entry++) {
        REAL(reply)[entry] = entries[entry];
        SET_STRING_ELT(labels, entry, Rf_mkChar(names[entry]));
    }
    Rf_setAttrib(reply, R_NamesSymbol, labels);
    UNPROTECT(2);
    return reply;
}
