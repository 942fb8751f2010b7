/* What every entry point needs to hand R's vectors to the engine: lists by address and length, and lent buffers of R's own
 * transient memory, which R takes back after each call, an error or an interrupt. */
#ifndef LENT_H
#define LENT_H

#include <stddef.h>
#include <stdint.h>

#define R_NO_REMAP
#include <Rinternals.h>

#include <walzhik_indices.h>

/* A list of 32-bit numbers as the engine takes it. */
typedef struct {
    const int32_t *entries;
    size_t length;
} list32;

/* The three lists of a space. */
typedef struct {
    list32 breaks, degrees, orders;
} space_lists;

/* The two lent buffers of weights. */
typedef struct {
    int64_t *num, *den;
} weight_buffers;

list32 list_of(SEXP vector);
int32_t one_number(SEXP vector);
space_lists lists_of(SEXP breaks, SEXP degrees, SEXP orders);
weight_buffers lent_weights(void);
void *lent(size_t count, size_t size);

/* Lets R see an interrupt once in a while: the count of turns so far. */
void look_up(size_t turn);

#define COUNT(array) ((int)(sizeof(array) / sizeof *(array)))

/* A named list; `names` has as many entries as `values`, which must be protected by the caller. */
SEXP named_list(int count, const char *const *names, const SEXP *values);

/* An answer's or a refusal's count, number and place, as doubles: each of them is exact. */
SEXP reply_of(double count, uint32_t number, uint32_t place);

#endif
