"""Random Tucson texts and lists: good ones, and damage in each way that the numbers name.

Good series are drawn with names that hold blanks, years below 0 and across 0,
no width, one, ends on a decade's end, widths 0 and at the limits, and closings
of both kinds. A text is damaged by its bytes, its lines or its fields (11, 12,
13); lists are damaged by their lengths (2) and entries (11). As with calls,
the model decides what the engine must say.
"""

from limits import (DECADE, FIELD_COLUMNS, HUNDREDTHS_CLOSING, LEAST_PRINTABLE, LEAST_YEAR,
                    MOST_FIELDS, MOST_HUNDREDTHS, MOST_PRINTABLE, MOST_THOUSANDTHS, MOST_YEAR,
                    NAME_COLUMNS, THOUSANDTHS_CLOSING, YEAR_COLUMNS)
from random_spaces import pick
from tucson import HEAD, LINE_END, Series, decade_lines, line_text

NAMES = (b"ABC01   ", b"ABC02   ", b"  ABC   ", b"A B C  1", b"       x", b"12345678",
         b"~~~~~~~~", b"  -9999 ", b"x      -", b"ABC01  A")
BAD_NAMES = (b"        ", b"ABC\t01  ", b"ABC01\r  ", b"ABC\x7f    ", b"ABC\xc3\xa9   ",
             b"\x00BC01   ", b"ABC\n01  ")
BAD_BYTES = (0, 9, 10, 13, 31, 32, 43, 45, 48, 57, 58, 126, 127, 128, 255)
BAD_FIELDS = (b"      ", b"   -0 ", b"    -0", b"    01", b"   +1 ", b"    +1", b"1     ",
              b"  1  2", b"   1.0", b"  -  1", b"    --", b"     -", b"\t    1", b"    1\r",
              b"100000", b"999999", b"    -1", b"-99999", b" -9999", b"   999", b"   99 ",
              b"000999", b"-09999", b" 99999", b"  9999", b" 10000", b"  1000")
BAD_YEARS = (b"    ", b"1 90", b"190 ", b"-0  ", b"  -0", b"0190", b"+190", b"19 0", b"   -",
             b"9999", b"-999", b"   0", b"1\t90")
FEW_SERIES, FEW_WIDTHS, MANY_WIDTHS = 4, 3, 45
ROOT_YEARS = (LEAST_YEAR, -990, -10, -1, 0, 9)
COMMON_WIDTH = 3_000
ALL_YEARS = 10_990                 # widths of a series from the least year to the last decade
RARELY = 0.004
PLAIN_LINE = b"ABC01   1900 -9999\n"
NOISE = 120                        # bytes
LEAST_INT, MOST_INT, MOST_COUNT = -2 ** 31, 2 ** 31 - 1, 2 ** 32 - 1


def any_name(rng):
    printable = bytes(rng.randint(LEAST_PRINTABLE, MOST_PRINTABLE) for _ in range(NAME_COLUMNS))
    return pick(rng, [(8, rng.choice(NAMES)), (2, printable)])


def a_name(rng, before):
    """A name that is not the one before."""
    while True:
        name = any_name(rng)
        if name.strip() and name != before:
            return name


def a_year(rng):
    return pick(rng, [(5, rng.randint(1500, 2020)), (2, rng.randint(-30, 15)),
                      (1, rng.choice(ROOT_YEARS)),
                      (1, rng.randint(LEAST_YEAR, MOST_YEAR - DECADE)),
                      (1, MOST_YEAR - rng.randrange(2 * DECADE))])


def a_width(rng, most):
    return pick(rng, [(6, rng.randint(0, min(most, COMMON_WIDTH))), (2, 0),
                      (1, rng.choice((most, most - 1, HUNDREDTHS_CLOSING, 1))),
                      (1, rng.randint(0, most))])


def a_count(rng, year):
    """None, one, a few, many, and those that end on or just past a decade's end."""
    to_end = DECADE - year % DECADE
    return pick(rng, [(1, 0), (1, 1), (3, rng.randint(0, FEW_WIDTHS)),
                      (4, rng.randint(0, MANY_WIDTHS)), (2, to_end - 1), (2, to_end),
                      (2, to_end + DECADE - 1), (1, to_end + DECADE)])


def a_series(rng, before, most):
    year = a_year(rng)
    count = min(a_count(rng, year), MOST_YEAR - year)
    if rng.random() < RARELY:
        year, count = LEAST_YEAR, ALL_YEARS
    return Series(a_name(rng, before), year, tuple(a_width(rng, most) for _ in range(count)))


def series_count(rng):
    return pick(rng, [(1, 0), (4, 1), (6, rng.randint(2, FEW_SERIES))])


def series_list(rng):
    made = []
    for _ in range(series_count(rng)):
        made.append(a_series(rng, made[-1].name if made else None, MOST_THOUSANDTHS))
    return made


def closed_lines(series, closing):
    """The lines of a series with its widths as given and this closing."""
    lines = [line_text(line) for line in decade_lines(series)]
    lines[-1] = lines[-1][:-FIELD_COLUMNS - 1] + b"%*d" % (FIELD_COLUMNS, closing) + LINE_END
    return lines


def good_lines(rng):
    """Lines of good series, closed in either way."""
    lines, before = [], None
    for _ in range(series_count(rng)):
        closing, most = rng.choice(((HUNDREDTHS_CLOSING, MOST_HUNDREDTHS),
                                    (THOUSANDTHS_CLOSING, MOST_THOUSANDTHS)))
        series = a_series(rng, before, most)
        before = series.name
        lines += closed_lines(series, closing)
    return lines


def good_text(rng):
    return b"".join(good_lines(rng))


# Damage to a text: each takes its lines and gives the text.

def any_index(rng, lines):
    return rng.randrange(len(lines))


def one_byte(rng, lines):
    text = b"".join(lines)
    place = rng.randrange(len(text))
    byte = bytes([rng.choice(BAD_BYTES + (rng.randrange(256),))])
    end = place + rng.choice((0, 1))
    return text[:place] + rng.choice((byte, byte, b"")) + text[end:]


def bad_field(rng, lines):
    """One field replaced; the closing of a line more often than others."""
    place = any_index(rng, lines)
    line = lines[place]
    count = (len(line) - HEAD) // FIELD_COLUMNS
    start = HEAD + FIELD_COLUMNS * rng.choice((rng.randrange(count), count - 1))
    lines[place] = line[:start] + rng.choice(BAD_FIELDS) + line[start + FIELD_COLUMNS:]
    return b"".join(lines)


def bad_year(rng, lines):
    """A year moved, or no year."""
    place = any_index(rng, lines)
    line = lines[place]
    year = int(line[NAME_COLUMNS:HEAD]) + rng.choice((-10, -1, 1, 10, 100))
    moved = b"%*d" % (YEAR_COLUMNS, year)
    columns = pick(rng, [(3, moved[-YEAR_COLUMNS:]), (2, rng.choice(BAD_YEARS))])
    lines[place] = line[:NAME_COLUMNS] + columns + line[HEAD:]
    return b"".join(lines)


def bad_name(rng, lines):
    """A line's name changed to a bad one, to another, or to that of another line."""
    place = any_index(rng, lines)
    other = lines[any_index(rng, lines)][:NAME_COLUMNS]
    name = pick(rng, [(2, rng.choice(BAD_NAMES)), (2, rng.choice(NAMES)), (2, other)])
    lines[place] = name + lines[place][NAME_COLUMNS:]
    return b"".join(lines)


def one_name(rng, lines):
    """All series under one name: next to each other they are one."""
    return b"".join(NAMES[0] + line[NAME_COLUMNS:] for line in lines)


def line_length(rng, lines):
    """Fields or bytes taken from or put to a line's end."""
    place = any_index(rng, lines)
    body = lines[place][:-1]
    body = rng.choice((body[:-FIELD_COLUMNS], body[:HEAD], body[:NAME_COLUMNS],
                       body[:NAME_COLUMNS - 1], b"", body[:-1], body + b" ", body + b"     7",
                       body + b"     7" * MOST_FIELDS, body + b"\r", body + b" -9999",
                       body + b"   999"))
    lines[place] = body + LINE_END
    return b"".join(lines)


def line_order(rng, lines):
    """A line left out, moved, doubled, or an empty one put in."""
    place = any_index(rng, lines)
    before, line, after = lines[:place], lines[place:place + 1], lines[place + 1:]
    return b"".join(rng.choice((before + after, line + before + after, before + after + line,
                                before + line + line + after,
                                before + [LINE_END] + line + after)))


def bad_end(rng, lines):
    """The last byte 10 missing, bytes after it, or byte 13 before each."""
    text, name = b"".join(lines), lines[-1][:NAME_COLUMNS]
    return rng.choice((text[:-1], text[:-1], text + LINE_END, text + b" ", text + name,
                       text + name[:-1], text + name + LINE_END,
                       text.replace(LINE_END, b"\r\n"), text[:rng.randrange(len(text))]))


def noise(rng, lines):
    return bytes(rng.choice(BAD_BYTES + (rng.randrange(256),))
                 for _ in range(rng.randrange(NOISE)))


TEXT_DAMAGE = [(14, one_byte), (22, bad_field), (14, bad_year), (12, bad_name), (4, one_name),
               (14, line_length), (10, line_order), (8, bad_end), (2, noise)]


def damaged_text(rng):
    """A good text damaged once; one in five has another byte changed."""
    text = pick(rng, TEXT_DAMAGE)(rng, good_lines(rng) or [PLAIN_LINE])
    return pick(rng, [(4, text), (1, one_byte(rng, [text or PLAIN_LINE]))])


def random_text(rng):
    return pick(rng, [(35, good_text), (65, damaged_text)])(rng)


# Lists for writing: names, first years, counts and widths.

def lists_of(series):
    return [b"".join(s.name for s in series), [s.first_year for s in series],
            [len(s.widths) for s in series], [width for s in series for width in s.widths]]


def changed(rng, entries, choices):
    if entries:
        entries[rng.randrange(len(entries))] = rng.choice(choices)


def bad_lengths(rng, lists):
    """One list shorter or longer than the others say."""
    names, years, counts, widths = lists
    shorter = (names[:-1], years[:-1], counts[:-1], widths[:-1])
    longer = (names + NAMES[0][:rng.randint(1, NAME_COLUMNS)], years + [1900],
              counts + [rng.choice((0, 1, MOST_COUNT))], widths + [0])
    place = rng.randrange(len(lists))
    lists[place] = rng.choice((shorter, longer))[place]
    return lists


def bad_count(rng, lists):
    changed(rng, lists[2], (0, 1, 2, 2 ** 31, MOST_COUNT, MOST_COUNT - 1))
    return lists


def bad_list_year(rng, lists):
    changed(rng, lists[1], (LEAST_YEAR - 1, LEAST_YEAR, MOST_YEAR, MOST_YEAR - 1, MOST_YEAR + 1,
                            MOST_YEAR - DECADE, 0, LEAST_INT, MOST_INT))
    return lists


def bad_list_width(rng, lists):
    changed(rng, lists[3], (-1, 0, THOUSANDTHS_CLOSING, HUNDREDTHS_CLOSING, MOST_THOUSANDTHS,
                            MOST_THOUSANDTHS + 1, LEAST_INT, MOST_INT))
    return lists


def bad_list_name(rng, lists):
    """A name that is not allowed, or that of another series."""
    names = [lists[0][i:i + NAME_COLUMNS] for i in range(0, len(lists[0]), NAME_COLUMNS)]
    choices = [name for name in BAD_NAMES + NAMES + tuple(names) if len(name) == NAME_COLUMNS]
    changed(rng, names, choices)
    lists[0] = b"".join(names)
    return lists


LIST_DAMAGE = [(3, bad_lengths), (2, bad_count), (4, bad_list_year), (4, bad_list_width),
               (4, bad_list_name)]


def random_lists(rng):
    lists = lists_of(series_list(rng))
    for _ in range(pick(rng, [(3, 0), (4, 1), (1, 2)])):
        lists = pick(rng, LIST_DAMAGE)(rng, lists)
    return lists
