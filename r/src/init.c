/* Registers the entry points, so that R finds no others and checks the number of their arguments. */
#include "entries.h"

#include <R_ext/Rdynload.h>
#include <R_ext/Visibility.h>

#define ENTRY(name, arguments) {#name, (DL_FUNC)&name, arguments}

static const R_CallMethodDef entries[] = {
    ENTRY(whole_numbers, 2),
    ENTRY(build, 3),
    ENTRY(coefficients, 4),
    ENTRY(curve, 5),
    ENTRY(indices, 7),
    ENTRY(reach, 6),
    ENTRY(piece, 6),
    ENTRY(tucson_clean, 3),
    ENTRY(tucson_read, 1),
    ENTRY(tucson_write, 4),
    {NULL, NULL, 0},
};

void attribute_visible R_init_walzhik(DllInfo *library)
{
    R_registerRoutines(library, NULL, entries, NULL, NULL);
    R_useDynamicSymbols(library, FALSE);
    R_forceSymbols(library, TRUE);
}
