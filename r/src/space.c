/* The calls that take a space alone: its weights, and coefficients from ordinates. The engine leaves the weights of a beam's last
 * part in the lent buffers, so a beam that it has answered has its parts built once more, each from its own lists: the header
 * says that the weights of a part are those. */
#include "entries.h"
#include "lent.h"

enum { SIDE = 72, DISCONTINUITY = -1 };

/* The non-zero weights of a beam so far, rows and columns counted over the beam from 0. */
typedef struct {
    double *row, *column, *num, *den;
    R_xlen_t count;
    int rows, columns;
} weight_table;

static walzhik_reply build_lists(space_lists space, weight_buffers weights)
{
    return walzhik_build(space.breaks.entries, space.breaks.length, space.degrees.entries, space.degrees.length,
                         space.orders.entries, space.orders.length, weights.num, WALZHIK_CELLS, weights.den, WALZHIK_CELLS);
}

/* The lists of the part that starts with this segment. */
static space_lists part_from(space_lists space, size_t first)
{
    size_t last = first;
    while (last < space.orders.length && space.orders.entries[last] != DISCONTINUITY)
        last++;
    size_t segments = last - first + 1;
    space_lists part = {{space.breaks.entries + first, segments + 1},
                        {space.degrees.entries + first, segments},
                        {space.orders.entries + first, segments - 1}};
    return part;
}

static int column_count(space_lists space)
{
    int columns = 0;
    for (size_t segment = 0; segment < space.degrees.length; segment++)
        columns += space.degrees.entries[segment] + 1;
    return columns;
}

static void add_part(weight_table *table, weight_buffers weights, int rows, int columns)
{
    for (int row = 0; row < rows; row++)
        for (int column = 0; column < columns; column++) {
            int cell = SIDE * row + column;
            if (weights.num[cell] == 0)
                continue;
            table->row[table->count] = table->rows + row;
            table->column[table->count] = table->columns + column;
            table->num[table->count] = (double)weights.num[cell];
            table->den[table->count] = (double)weights.den[cell];
            table->count++;
        }
    table->rows += rows;
    table->columns += columns;
}

/* A column of a part has at most 72 rows. */
static weight_table empty_table(int columns)
{
    size_t most = (size_t)columns * SIDE;
    weight_table table = {lent(most, sizeof(double)), lent(most, sizeof(double)), lent(most, sizeof(double)),
                          lent(most, sizeof(double)), 0, 0, 0};
    return table;
}

static SEXP doubles(const double *entries, R_xlen_t count)
{
    SEXP vector = Rf_allocVector(REALSXP, count);
    for (R_xlen_t entry = 0; entry < count; entry++)
        REAL(vector)[entry] = entries[entry];
    return vector;
}

static SEXP table_list(walzhik_reply reply, const weight_table *table)
{
    static const char *const names[] = {"reply", "row", "column", "numerator", "denominator"};
    SEXP values[COUNT(names)];
    values[0] = PROTECT(reply_of((double)reply.count, reply.number, reply.place));
    values[1] = PROTECT(doubles(table->row, table->count));
    values[2] = PROTECT(doubles(table->column, table->count));
    values[3] = PROTECT(doubles(table->num, table->count));
    values[4] = PROTECT(doubles(table->den, table->count));
    SEXP list = named_list(COUNT(names), names, values);
    UNPROTECT(COUNT(names));
    return list;
}

SEXP build(SEXP breaks, SEXP degrees, SEXP orders)
{
    space_lists space = lists_of(breaks, degrees, orders);
    weight_buffers weights = lent_weights();
    walzhik_reply reply = build_lists(space, weights);
    if (reply.number != 0) {
        weight_table none = empty_table(0);
        return table_list(reply, &none);
    }
    weight_table table = empty_table(column_count(space));
    for (size_t first = 0; first < space.degrees.length;) {
        space_lists part = part_from(space, first);
        walzhik_reply built = build_lists(part, weights);
        if (built.number != 0)
            Rf_error("the engine refused a part of a beam that it had answered");
        add_part(&table, weights, (int)built.count, column_count(part));
        first += part.degrees.length;
    }
    return table_list(reply, &table);
}

static SEXP doubles_of_whole(const int64_t *entries, R_xlen_t count)
{
    SEXP vector = Rf_allocVector(REALSXP, count);
    for (R_xlen_t entry = 0; entry < count; entry++)
        REAL(vector)[entry] = (double)entries[entry];
    return vector;
}

SEXP coefficients(SEXP breaks, SEXP degrees, SEXP orders, SEXP ordinates)
{
    static const char *const names[] = {"reply", "numerator", "denominator"};
    space_lists space = lists_of(breaks, degrees, orders);
    list32 local = list_of(ordinates);
    weight_buffers weights = lent_weights();
    int64_t *num = lent(local.length, sizeof(int64_t)), *den = lent(local.length, sizeof(int64_t));
    walzhik_reply reply = walzhik_coefficients(
        space.breaks.entries, space.breaks.length, space.degrees.entries, space.degrees.length, space.orders.entries,
        space.orders.length, local.entries, local.length, weights.num, WALZHIK_CELLS, weights.den, WALZHIK_CELLS, num,
        local.length, den, local.length);
    SEXP values[COUNT(names)];
    values[0] = PROTECT(reply_of((double)reply.count, reply.number, reply.place));
    values[1] = PROTECT(doubles_of_whole(num, (R_xlen_t)reply.count));
    values[2] = PROTECT(doubles_of_whole(den, (R_xlen_t)reply.count));
    SEXP list = named_list(COUNT(names), names, values);
    UNPROTECT(COUNT(names));
    return list;
}
