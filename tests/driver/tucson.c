/* Runs the three calls for Tucson files from text and prints every lent cell as
 * text: `read text=.. names=.. years=.. counts=.. widths=..` with the text's
 * bytes as a list and four lent buffers, `write names=.. years=.. counts=..
 * widths=.. text=..` with four lists and one buffer, `clean text=.. header=..
 * unit=.. out=.. lines=.. notes=..` with the text's bytes as a list, two numbers
 * and three lent buffers. lent.h says how lists and buffers are written and
 * held. */

#include "lent.h"

static void run_read(const char *line)
{
    enum { TEXT, NAMES, YEARS, COUNTS, WIDTHS, ALL };
    cells held[ALL];
    held[TEXT] = read_list(&line, "text", UNSIGNED_8);
    held[NAMES] = read_buffer(&line, "names", UNSIGNED_8);
    held[YEARS] = read_buffer(&line, "years", SIGNED_32);
    held[COUNTS] = read_buffer(&line, "counts", UNSIGNED_32);
    held[WIDTHS] = read_buffer(&line, "widths", SIGNED_32);

    print_reply(walzhik_tucson_read(in(&held[TEXT]), held[TEXT].length, in(&held[NAMES]), held[NAMES].length,
                                    in(&held[YEARS]), held[YEARS].length, in(&held[COUNTS]), held[COUNTS].length,
                                    in(&held[WIDTHS]), held[WIDTHS].length));
    for (size_t i = NAMES; i < ALL; i++)
        print_changed(&held[i]);
    end_all(held, ALL);
}

static void run_write(const char *line)
{
    enum { NAMES, YEARS, COUNTS, WIDTHS, TEXT, ALL };
    cells held[ALL];
    held[NAMES] = read_list(&line, "names", UNSIGNED_8);
    held[YEARS] = read_list(&line, "years", SIGNED_32);
    held[COUNTS] = read_list(&line, "counts", UNSIGNED_32);
    held[WIDTHS] = read_list(&line, "widths", SIGNED_32);
    held[TEXT] = read_buffer(&line, "text", UNSIGNED_8);

    print_reply(walzhik_tucson_write(in(&held[NAMES]), held[NAMES].length, in(&held[YEARS]), held[YEARS].length,
                                     in(&held[COUNTS]), held[COUNTS].length, in(&held[WIDTHS]), held[WIDTHS].length,
                                     in(&held[TEXT]), held[TEXT].length));
    print_changed(&held[TEXT]);
    end_all(held, ALL);
}

static uint32_t read_unsigned(const char **line, const char *name)
{
    after_name(line, name);
    long long number = read_number(line);
    if (number < 0 || number > UINT32_MAX)
        give_up("no unsigned number of 32 bits", name);
    return (uint32_t)number;
}

static void run_clean(const char *line)
{
    enum { TEXT, OUT, LINES, NOTES, ALL };
    cells held[ALL];
    held[TEXT] = read_list(&line, "text", UNSIGNED_8);
    uint32_t header = read_unsigned(&line, "header");
    uint32_t unit = read_unsigned(&line, "unit");
    held[OUT] = read_buffer(&line, "out", UNSIGNED_8);
    held[LINES] = read_buffer(&line, "lines", SIZE);
    held[NOTES] = read_buffer(&line, "notes", SIZE);

    walzhik_cleaned cleaned = walzhik_tucson_clean(in(&held[TEXT]), held[TEXT].length, header, unit, in(&held[OUT]),
                                                   held[OUT].length, in(&held[LINES]), held[LINES].length, in(&held[NOTES]),
                                                   held[NOTES].length);
    printf("bytes=%" PRIu64 " lines=%" PRIu64 " notes=%" PRIu64 " number=%" PRIu32 " place=%" PRIu32, cleaned.bytes,
           cleaned.lines, cleaned.notes, cleaned.number, cleaned.place);
    for (size_t i = OUT; i < ALL; i++)
        print_changed(&held[i]);
    end_all(held, ALL);
}

static void run_line(const char *line)
{
    const char *rest;
    if ((rest = after_word(line, "read ")) != NULL)
        run_read(rest);
    else if ((rest = after_word(line, "write ")) != NULL)
        run_write(rest);
    else if ((rest = after_word(line, "clean ")) != NULL)
        run_clean(rest);
    else
        give_up("expected the name of a call", line);
}

int main(int count, char **words) { return run_lines(count, words, run_line); }
