/* The package's entry points for .Call, as init.c registers them. */
#ifndef ENTRIES_H
#define ENTRIES_H

#define R_NO_REMAP
#include <Rinternals.h>

SEXP whole_numbers(SEXP vector, SEXP most);
SEXP build(SEXP breaks, SEXP degrees, SEXP orders);
SEXP coefficients(SEXP breaks, SEXP degrees, SEXP orders, SEXP ordinates);
SEXP curve(SEXP breaks, SEXP degrees, SEXP orders, SEXP coefs, SEXP positions);
SEXP indices(SEXP breaks, SEXP degrees, SEXP orders, SEXP coefs, SEXP first, SEXP widths, SEXP latewood);
SEXP reach(SEXP breaks, SEXP degrees, SEXP orders, SEXP coefs, SEXP width, SEXP latewood);
SEXP piece(SEXP breaks, SEXP degrees, SEXP orders, SEXP coefs, SEXP segment, SEXP latewood);
SEXP tucson_clean(SEXP text, SEXP header, SEXP unit);
SEXP tucson_read(SEXP text);
SEXP tucson_write(SEXP names, SEXP years, SEXP counts, SEXP widths);

#endif
