/* Runs calls of the engine from text and prints every lent cell as text.
 *
 * Standard input holds one call a line, standard output gets one result a
 * line; tests/reference/protocol.py says what both look like, lent.h how lists
 * and buffers are held. */

#include "lent.h"
#define WALZHIK_PROVED_CALLS /* the calls themselves, without the header\'s functions around them */
#include "walzhik_indices.h"

enum { CELLS = 5184 };

/* The lists and buffers of a call, in the order of the header. */
enum { BREAKS, DEGREES, ORDERS, SPACE_LISTS };

static void read_space(const char **line, cells *held)
{
    held[BREAKS] = read_list(line, "breaks", SIGNED_32);
    held[DEGREES] = read_list(line, "degrees", SIGNED_32);
    held[ORDERS] = read_list(line, "orders", SIGNED_32);
}

/* All cells that differ from the blank table, whose first cells hold `blank`. */
static void print_table(const cells *held, int64_t blank)
{
    bool same = true;
    for (size_t i = 0; i < held->length; i++)
        same = same && now_in(held, i) == once_in(held, i);
    printf(" %s=%s", held->name, same ? "same" : "");
    const char *comma = "";
    for (size_t i = 0; !same && i < held->length; i++) {
        if (now_in(held, i) != (i < CELLS ? blank : once_in(held, i))) {
            printf("%s%zu:%" PRId64, comma, i, now_in(held, i));
            comma = ",";
        }
    }
}

static void print_weights(const cells *num, const cells *den)
{
    print_table(num, 0);
    print_table(den, 1);
}

/* The calls. */

static void run_build(const char *line)
{
    enum { NUM = SPACE_LISTS, DEN, ALL };
    cells held[ALL];
    read_space(&line, held);
    held[NUM] = read_buffer(&line, "num", SIGNED_64);
    held[DEN] = read_buffer(&line, "den", SIGNED_64);

    print_reply(walzhik_build(in(&held[BREAKS]), held[BREAKS].length, in(&held[DEGREES]), held[DEGREES].length,
                              in(&held[ORDERS]), held[ORDERS].length, in(&held[NUM]), held[NUM].length, in(&held[DEN]),
                              held[DEN].length));
    print_weights(&held[NUM], &held[DEN]);
    end_all(held, ALL);
}

static void run_curve(const char *line)
{
    enum { COEFS = SPACE_LISTS, POSITIONS, NUM, DEN, VALUES, ALL };
    cells held[ALL];
    read_space(&line, held);
    held[COEFS] = read_list(&line, "coefs", SIGNED_32);
    held[POSITIONS] = read_list(&line, "at", SIGNED_32);
    held[NUM] = read_buffer(&line, "num", SIGNED_64);
    held[DEN] = read_buffer(&line, "den", SIGNED_64);
    held[VALUES] = read_buffer(&line, "values", SIGNED_32);

    print_reply(walzhik_curve(in(&held[BREAKS]), held[BREAKS].length, in(&held[DEGREES]), held[DEGREES].length,
                              in(&held[ORDERS]), held[ORDERS].length, in(&held[COEFS]), held[COEFS].length,
                              in(&held[POSITIONS]), held[POSITIONS].length, in(&held[NUM]), held[NUM].length,
                              in(&held[DEN]), held[DEN].length, in(&held[VALUES]), held[VALUES].length));
    print_weights(&held[NUM], &held[DEN]);
    print_changed(&held[VALUES]);
    end_all(held, ALL);
}

/* The index call of a wood part, both of one type. */
typedef walzhik_reply index_call(const int32_t *, size_t, const int32_t *, size_t, const int32_t *, size_t, const int32_t *,
                                 size_t, int32_t, const int32_t *, size_t, int64_t *, size_t, int64_t *, size_t, int32_t *,
                                 size_t, int64_t *, size_t);

static void run_indices(const char *line, index_call *call)
{
    enum { COEFS = SPACE_LISTS, WIDTHS, NUM, DEN, VALUES, INDICES, ALL };
    cells held[ALL];
    read_space(&line, held);
    held[COEFS] = read_list(&line, "coefs", SIGNED_32);
    after_name(&line, "first");
    int32_t first = (int32_t)read_number(&line);
    held[WIDTHS] = read_list(&line, "widths", SIGNED_32);
    held[NUM] = read_buffer(&line, "num", SIGNED_64);
    held[DEN] = read_buffer(&line, "den", SIGNED_64);
    held[VALUES] = read_buffer(&line, "values", SIGNED_32);
    held[INDICES] = read_buffer(&line, "indices", SIGNED_64);

    print_reply(call(in(&held[BREAKS]), held[BREAKS].length, in(&held[DEGREES]), held[DEGREES].length, in(&held[ORDERS]),
                     held[ORDERS].length, in(&held[COEFS]), held[COEFS].length, first, in(&held[WIDTHS]),
                     held[WIDTHS].length, in(&held[NUM]), held[NUM].length, in(&held[DEN]), held[DEN].length,
                     in(&held[VALUES]), held[VALUES].length, in(&held[INDICES]), held[INDICES].length));
    print_weights(&held[NUM], &held[DEN]);
    print_changed(&held[VALUES]);
    print_changed(&held[INDICES]);
    end_all(held, ALL);
}

/* The call for a wood part's lines of the table, both of one type. */
typedef walzhik_reply lines_call(const uint8_t *, size_t, int32_t, const int32_t *, size_t, const int32_t *, size_t,
                                 const int64_t *, size_t, uint8_t *, size_t);

static void run_ring_lines(const char *line, lines_call *call)
{
    enum { NAME, WIDTHS, VALUES, INDICES, OUT, ALL };
    cells held[ALL];
    held[NAME] = read_list(&line, "name", UNSIGNED_8);
    after_name(&line, "first");
    int32_t first = (int32_t)read_number(&line);
    held[WIDTHS] = read_list(&line, "widths", SIGNED_32);
    held[VALUES] = read_list(&line, "values", SIGNED_32);
    held[INDICES] = read_list(&line, "indices", SIGNED_64);
    held[OUT] = read_buffer(&line, "out", UNSIGNED_8);

    print_reply(call(in(&held[NAME]), held[NAME].length, first, in(&held[WIDTHS]), held[WIDTHS].length, in(&held[VALUES]),
                     held[VALUES].length, in(&held[INDICES]), held[INDICES].length, in(&held[OUT]), held[OUT].length));
    print_changed(&held[OUT]);
    end_all(held, ALL);
}

/* The reach call of a wood part, both of one type. */
typedef walzhik_reach reach_call(const int32_t *, size_t, const int32_t *, size_t, const int32_t *, size_t, const int32_t *,
                                 size_t, int32_t, int64_t *, size_t, int64_t *, size_t);

static void run_reach(const char *line, reach_call *call)
{
    enum { COEFS = SPACE_LISTS, NUM, DEN, ALL };
    cells held[ALL];
    read_space(&line, held);
    held[COEFS] = read_list(&line, "coefs", SIGNED_32);
    after_name(&line, "width");
    int32_t width = (int32_t)read_number(&line);
    held[NUM] = read_buffer(&line, "num", SIGNED_64);
    held[DEN] = read_buffer(&line, "den", SIGNED_64);

    walzhik_reach reach = call(in(&held[BREAKS]), held[BREAKS].length, in(&held[DEGREES]), held[DEGREES].length,
                               in(&held[ORDERS]), held[ORDERS].length, in(&held[COEFS]), held[COEFS].length, width,
                               in(&held[NUM]), held[NUM].length, in(&held[DEN]), held[DEN].length);
    printf("reach=%" PRId32 ",%" PRIu32 ",%" PRIu32, reach.position, reach.number, reach.place);
    print_weights(&held[NUM], &held[DEN]);
    end_all(held, ALL);
}

/* The piece call of a wood part, both of one type. */
typedef walzhik_piece piece_call(const int32_t *, size_t, const int32_t *, size_t, const int32_t *, size_t, const int32_t *,
                                 size_t, uint32_t, int64_t *, size_t, int64_t *, size_t);

/* A float as its bits. */
static void print_bits(const char *before, double number)
{
    uint64_t bits;
    memcpy(&bits, &number, sizeof bits);
    printf("%s%016" PRIx64, before, bits);
}

static void run_piece(const char *line, piece_call *call)
{
    enum { COEFS = SPACE_LISTS, NUM, DEN, ALL };
    cells held[ALL];
    read_space(&line, held);
    held[COEFS] = read_list(&line, "coefs", SIGNED_32);
    after_name(&line, "segment");
    uint32_t segment = (uint32_t)read_number(&line);
    held[NUM] = read_buffer(&line, "num", SIGNED_64);
    held[DEN] = read_buffer(&line, "den", SIGNED_64);

    walzhik_piece piece = call(in(&held[BREAKS]), held[BREAKS].length, in(&held[DEGREES]), held[DEGREES].length,
                               in(&held[ORDERS]), held[ORDERS].length, in(&held[COEFS]), held[COEFS].length, segment,
                               in(&held[NUM]), held[NUM].length, in(&held[DEN]), held[DEN].length);
    printf("piece=%" PRIu32 ",%" PRIu32 ",%" PRIu32 ",%" PRIu32, piece.number, piece.place, piece.degree, piece.unused);
    print_bits(" ordinates=", piece.o0);
    print_bits(",", piece.o1);
    print_bits(",", piece.o2);
    print_bits(",", piece.o3);
    print_bits(" ends=", piece.start);
    print_bits(",", piece.end);
    print_weights(&held[NUM], &held[DEN]);
    end_all(held, ALL);
}

static void run_coefficients(const char *line)
{
    enum { ORDINATES = SPACE_LISTS, NUM, DEN, COEF_NUM, COEF_DEN, ALL };
    cells held[ALL];
    read_space(&line, held);
    held[ORDINATES] = read_list(&line, "ordinates", SIGNED_32);
    held[NUM] = read_buffer(&line, "num", SIGNED_64);
    held[DEN] = read_buffer(&line, "den", SIGNED_64);
    held[COEF_NUM] = read_buffer(&line, "coef_num", SIGNED_64);
    held[COEF_DEN] = read_buffer(&line, "coef_den", SIGNED_64);

    print_reply(walzhik_coefficients(in(&held[BREAKS]), held[BREAKS].length, in(&held[DEGREES]), held[DEGREES].length,
                                     in(&held[ORDERS]), held[ORDERS].length, in(&held[ORDINATES]), held[ORDINATES].length,
                                     in(&held[NUM]), held[NUM].length, in(&held[DEN]), held[DEN].length,
                                     in(&held[COEF_NUM]), held[COEF_NUM].length, in(&held[COEF_DEN]),
                                     held[COEF_DEN].length));
    print_weights(&held[NUM], &held[DEN]);
    print_changed(&held[COEF_NUM]);
    print_changed(&held[COEF_DEN]);
    end_all(held, ALL);
}

static void run_line(const char *line)
{
    const char *rest;
    if ((rest = after_word(line, "build ")) != NULL)
        run_build(rest);
    else if ((rest = after_word(line, "curve ")) != NULL)
        run_curve(rest);
    else if ((rest = after_word(line, "earlywood_indices ")) != NULL)
        run_indices(rest, walzhik_earlywood_indices);
    else if ((rest = after_word(line, "latewood_indices ")) != NULL)
        run_indices(rest, walzhik_latewood_indices);
    else if ((rest = after_word(line, "earlywood_ring_lines ")) != NULL)
        run_ring_lines(rest, walzhik_earlywood_ring_lines);
    else if ((rest = after_word(line, "latewood_ring_lines ")) != NULL)
        run_ring_lines(rest, walzhik_latewood_ring_lines);
    else if ((rest = after_word(line, "earlywood_reach ")) != NULL)
        run_reach(rest, walzhik_earlywood_reach);
    else if ((rest = after_word(line, "latewood_reach ")) != NULL)
        run_reach(rest, walzhik_latewood_reach);
    else if ((rest = after_word(line, "earlywood_piece ")) != NULL)
        run_piece(rest, walzhik_earlywood_piece);
    else if ((rest = after_word(line, "latewood_piece ")) != NULL)
        run_piece(rest, walzhik_latewood_piece);
    else if ((rest = after_word(line, "coefficients ")) != NULL)
        run_coefficients(rest);
    else
        give_up("expected the name of a call", line);
}

int main(int count, char **words) { return run_lines(count, words, run_line); }
