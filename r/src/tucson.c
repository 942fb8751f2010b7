/* Tucson decadal files: a laboratory's file in the strict form, a text as names, first years, counts and widths, and back. Texts may be
 * longer than 2^31 bytes. */
#include "entries.h"
#include "lent.h"

#include <string.h>

/* A text has at most so many series and widths, by the header. */
enum { NAME_BYTES = 8, LEAST_SERIES_BYTES = 19, LEAST_WIDTH_BYTES = 6 };

/* What a line of a written text takes: name, year and line end, six columns a field; a decade has ten. */
enum { LINE_BYTES = 13, FIELD_BYTES = 6, DECADE = 10 };

/* Room for a laboratory's file, by the header: so many bytes and cells of notes a byte of it, and so many bytes a line. */
enum { CLEAN_BYTES = 2, LEAST_LINE_BYTES = 10, NOTE_CELLS = 2, MORE_NOTE_CELLS = 4 };

static const uint8_t no_bytes = 0;

static const uint8_t *bytes_of(SEXP raw)
{
    if (TYPEOF(raw) != RAWSXP)
        Rf_error("an entry point of the package was given a text that is not of type raw");
    return XLENGTH(raw) > 0 ? RAW(raw) : &no_bytes;
}

typedef struct {
    uint8_t *names;
    int32_t *years;
    uint32_t *counts;
    int32_t *widths;
} series_buffers;

static SEXP name_strings(const uint8_t *names, R_xlen_t series)
{
    SEXP strings = PROTECT(Rf_allocVector(STRSXP, series));
    for (R_xlen_t place = 0; place < series; place++) {
        const char *name = (const char *)names + NAME_BYTES * place;
        SET_STRING_ELT(strings, place, Rf_mkCharLenCE(name, NAME_BYTES, CE_NATIVE));
        look_up((size_t)place);
    }
    UNPROTECT(1);
    return strings;
}

static SEXP integers(const int32_t *entries, R_xlen_t count)
{
    SEXP vector = PROTECT(Rf_allocVector(INTSXP, count));
    int *cells = count > 0 ? INTEGER(vector) : NULL;
    for (R_xlen_t entry = 0; entry < count; entry++) {
        cells[entry] = entries[entry];
        look_up((size_t)entry);
    }
    UNPROTECT(1);
    return vector;
}

/* Counts as doubles, and how many widths there are in all. */
static SEXP count_doubles(const uint32_t *counts, R_xlen_t series, R_xlen_t *widths)
{
    SEXP vector = Rf_allocVector(REALSXP, series);
    *widths = 0;
    for (R_xlen_t place = 0; place < series; place++) {
        REAL(vector)[place] = counts[place];
        *widths += counts[place];
    }
    return vector;
}

SEXP tucson_read(SEXP text)
{
    static const char *const names[] = {"reply", "name", "first", "count", "widths"};
    const uint8_t *bytes = bytes_of(text);
    size_t length = (size_t)XLENGTH(text), most = length / LEAST_SERIES_BYTES, most_widths = length / LEAST_WIDTH_BYTES;
    series_buffers lists = {lent(NAME_BYTES * most, sizeof(uint8_t)), lent(most, sizeof(int32_t)),
                            lent(most, sizeof(uint32_t)), lent(most_widths, sizeof(int32_t))};
    walzhik_reply reply = walzhik_tucson_read(bytes, length, lists.names, NAME_BYTES * most, lists.years, most, lists.counts,
                                              most, lists.widths, most_widths);
    R_xlen_t series = (R_xlen_t)reply.count, widths;
    SEXP values[COUNT(names)];
    values[0] = PROTECT(reply_of((double)reply.count, reply.number, reply.place));
    values[1] = PROTECT(name_strings(lists.names, series));
    values[2] = PROTECT(integers(lists.years, series));
    values[3] = PROTECT(count_doubles(lists.counts, series, &widths));
    values[4] = PROTECT(integers(lists.widths, widths));
    SEXP list = named_list(COUNT(names), names, values);
    UNPROTECT(COUNT(names));
    return list;
}

/* Cells as doubles, which hold every line of a file. */
static SEXP doubles(const size_t *cells, R_xlen_t count)
{
    SEXP vector = PROTECT(Rf_allocVector(REALSXP, count));
    for (R_xlen_t cell = 0; cell < count; cell++) {
        REAL(vector)[cell] = (double)cells[cell];
        look_up((size_t)cell);
    }
    UNPROTECT(1);
    return vector;
}

SEXP tucson_clean(SEXP text, SEXP header, SEXP unit)
{
    static const char *const names[] = {"reply", "text", "lines", "notes"};
    const uint8_t *bytes = bytes_of(text);
    size_t length = (size_t)XLENGTH(text), most_bytes = CLEAN_BYTES * length, most_lines = length / LEAST_LINE_BYTES,
           most_cells = NOTE_CELLS * length + MORE_NOTE_CELLS;
    uint8_t *out = lent(most_bytes, sizeof(uint8_t));
    size_t *lines = lent(most_lines, sizeof(size_t)), *notes = lent(most_cells, sizeof(size_t));
    walzhik_cleaned made = walzhik_tucson_clean(bytes, length, (uint32_t)one_number(header), (uint32_t)one_number(unit), out, most_bytes,
                                                lines, most_lines, notes, most_cells);
    SEXP values[COUNT(names)];
    values[0] = PROTECT(reply_of((double)made.lines, made.number, made.place));
    values[1] = PROTECT(Rf_allocVector(RAWSXP, (R_xlen_t)made.bytes));
    if (made.bytes > 0)
        memcpy(RAW(values[1]), out, (size_t)made.bytes);
    values[2] = PROTECT(doubles(lines, (R_xlen_t)made.lines));
    values[3] = PROTECT(doubles(notes, NOTE_CELLS * (R_xlen_t)made.notes));
    SEXP list = named_list(COUNT(names), names, values);
    UNPROTECT(COUNT(names));
    return list;
}

/* A count of widths, which R holds as an integer. */
static uint32_t count_of(int32_t count)
{
    if (count < 0)
        Rf_error("an entry point of the package was given a count below 0");
    return (uint32_t)count;
}

/* More bytes than the text of these series has: a series fills its decades, but for the first and the last line. */
static size_t room_for(list32 counts)
{
    size_t room = 0;
    for (size_t place = 0; place < counts.length; place++) {
        size_t fields = (size_t)count_of(counts.entries[place]) + 1;
        room += FIELD_BYTES * fields + LINE_BYTES * (fields / DECADE + 2);
    }
    return room;
}

SEXP tucson_write(SEXP names, SEXP years, SEXP counts, SEXP widths)
{
    static const char *const labels[] = {"reply", "text"};
    const uint8_t *bytes = bytes_of(names);
    list32 first = list_of(years), listed = list_of(counts), all = list_of(widths);
    size_t room = room_for(listed);
    uint8_t *text = lent(room, sizeof(uint8_t));
    uint32_t *lengths = lent(listed.length, sizeof(uint32_t));
    for (size_t place = 0; place < listed.length; place++)
        lengths[place] = count_of(listed.entries[place]);
    walzhik_reply reply = walzhik_tucson_write(bytes, (size_t)XLENGTH(names), first.entries, first.length, lengths,
                                               listed.length, all.entries, all.length, text, room);
    SEXP values[COUNT(labels)];
    values[0] = PROTECT(reply_of((double)reply.count, reply.number, reply.place));
    values[1] = PROTECT(Rf_allocVector(RAWSXP, (R_xlen_t)reply.count));
    if (reply.count > 0)
        memcpy(RAW(values[1]), text, (size_t)reply.count);
    SEXP list = named_list(COUNT(labels), labels, values);
    UNPROTECT(COUNT(labels));
    return list;
}
