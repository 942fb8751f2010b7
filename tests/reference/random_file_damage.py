"""Damage to laboratories' files: what a hand, a program or a disk does to their lines and bytes.

Damage of lines takes a draft, damage of the text its bytes (random_files.py).
Each is aimed at a sentence of § 16: columns that moved, years in names, closings
of another unit, bytes that no such file has.
"""

from limits import FIELD_COLUMNS, NAME_COLUMNS
from shown import MARK
from tucson import HEAD

MINUS = (b"\xe2\x88\x92", b"\xe2\x80\x93", b"\x96")
CLOSINGS = (b"   999", b" -9999", b"  -999", b"  9990", b"  -998")
YEAR_NAMES = (b"ABC01  1", b"ABC012-1", b"ABC01 ?1", b"ABC01  -", b"ABC01  ?", b"FJ -725 ", b" ABC01  ", b"ABC01 12",
              b"ABC?123 ", b"ABC? 123")
LETTERS = ((b"\xe9", b"\xe8"), (b"\xc3\xa9", b"\xc3\xa8"), (b"\xe9", b"?"), (b"\xc3\xa9", b"\xe9"), (b"\xe2\x80\x93", b"?"))
BYTES = b"\x00\t\n\r\x1a  -?09A\x7f\x80\xc3\xef\xfe\xff"


def changed_line(rng, draft, change):
    place = draft.any_place(rng)
    draft.lines[place] = change(draft.lines[place])


def at(rng, line):
    return rng.randrange(len(line) + 1)


# Lines.

def shift_digits(rng, draft):
    """A blank too many, or one too few."""
    def change(line):
        place = at(rng, line)
        return rng.choice((line[:place] + b" " + line[place:], line.replace(b" ", b"", 1),
                           line[:place] + line[place:].replace(b" ", b"", 1), b" " + line, line[1:]))
    changed_line(rng, draft, change)


def swap_bytes(rng, draft):
    def change(line):
        place = at(rng, line)
        return line[:place] + line[place:place + 2][::-1] + line[place + 2:]
    changed_line(rng, draft, change)


def join_fields(rng, draft):
    """The blanks before a field lost."""
    def change(line):
        start = HEAD + FIELD_COLUMNS * rng.randrange(3)
        return line[:start] + line[start:start + FIELD_COLUMNS].lstrip() + line[start + FIELD_COLUMNS:]
    changed_line(rng, draft, change)


def other_minus(rng, draft):
    """A minus that is not ASCII, before a year or in a closing."""
    minus = rng.choice(MINUS)
    def change(line):
        if rng.random() < 0.4 and b"-" in line[NAME_COLUMNS:]:
            return line[:NAME_COLUMNS] + line[NAME_COLUMNS:].replace(b"-", minus, 1)
        return line[:NAME_COLUMNS - rng.choice((1, 1, len(minus)))] + minus + line[NAME_COLUMNS:]
    changed_line(rng, draft, change)


def year_into_name(rng, draft):
    """A name that a year of five columns would leave, in one line or in a whole series."""
    name = rng.choice(YEAR_NAMES)
    old = draft.lines[draft.any_place(rng)][:NAME_COLUMNS]
    for i, line in enumerate(draft.lines):
        if line.startswith(old):
            draft.lines[i] = name + line[NAME_COLUMNS:]
            if rng.random() < 0.5:
                return


def other_closing(rng, draft):
    changed_line(rng, draft, lambda line: line[:-FIELD_COLUMNS] + rng.choice(CLOSINGS))


def closing_within(rng, draft):
    """999, -999 or -9999 in any field."""
    def change(line):
        fields = max((len(line) - HEAD) // FIELD_COLUMNS, 1)
        start = HEAD + FIELD_COLUMNS * rng.randrange(fields)
        return line[:start] + rng.choice((b"   999", b"   999", *CLOSINGS)) + line[start + FIELD_COLUMNS:]
    changed_line(rng, draft, change)


def other_year(rng, draft):
    """A year moved by one, a decade or a century."""
    def change(line):
        digits = line[NAME_COLUMNS:HEAD].strip()
        if not digits.lstrip(b"-").isdigit():
            return line
        year = int(digits) + rng.choice((-100, -10, -1, 1, 10, 100))
        return line[:NAME_COLUMNS] + b"%4d" % year + line[HEAD:]
    changed_line(rng, draft, change)


def other_name(rng, draft):
    """A line under the name of another line, or one byte of its name another."""
    name = draft.lines[draft.any_place(rng)][:NAME_COLUMNS]
    place = rng.randrange(NAME_COLUMNS)
    name = rng.choice((name, name[:place] + rng.choice((b"?", b"\xe9", b"\xc3\xa9", b" ", b"1")) + name[place + 1:]))
    changed_line(rng, draft, lambda line: name + line[NAME_COLUMNS:])


def like_names(rng, draft):
    """Two lines whose names differ in a byte or character that becomes ?, or are alike in it."""
    place, column = draft.any_place(rng), rng.randrange(NAME_COLUMNS - 1)
    name = draft.lines[place][:NAME_COLUMNS]
    letters = rng.choice(LETTERS)
    for i, line in enumerate(draft.lines[place:place + 2]):
        draft.lines[place + i] = name[:column] + rng.choice(letters) + name[column + 1:] + line[NAME_COLUMNS:]


def drop_line(rng, draft):
    if len(draft.lines) > 1:
        del draft.lines[draft.any_place(rng)]


def exchange_lines(rng, draft):
    one, other = draft.any_place(rng), draft.any_place(rng)
    draft.lines[one], draft.lines[other] = draft.lines[other], draft.lines[one]


def double_line(rng, draft):
    place = draft.any_place(rng)
    draft.lines.insert(place, draft.lines[place])


def cut_line(rng, draft):
    changed_line(rng, draft, lambda line: rng.choice((line[:-FIELD_COLUMNS], line[:at(rng, line)], line + b"   812")))


def data_as_header(rng, draft):
    """Three data lines that look like a header."""
    draft.lines[:0] = [b"OAK 01 %d 850    12    13    14   999%b" % (k, rng.choice((b" A", b"", b" \xe9"))) for k in (1, 2, 3)]


LINE_DAMAGE = [(10, shift_digits), (4, swap_bytes), (5, join_fields), (10, other_minus), (10, year_into_name),
               (9, other_closing), (9, closing_within), (8, other_year), (9, other_name), (9, like_names), (6, drop_line),
               (5, exchange_lines), (4, double_line), (5, cut_line), (3, data_as_header)]


# The text.

def put_in(rng, text, inserted):
    place = at(rng, text)
    return text[:place] + inserted + text[place:]


def lone_return(rng, text):
    return rng.choice((put_in(rng, text, b"\r"), text.replace(b"\n", b"\r"), text.replace(b"\n", b"\r\r\n", 1), text + b"\r"))


def zero_bytes(rng, text):
    return put_in(rng, text, b"\x00" * rng.randint(1, 3))


def wide_text(rng, text):
    """UTF-16, or the mark of it alone."""
    return rng.choice((b"\xff\xfe" + text, b"\xfe\xff" + text, b"\xff\xfe" + text.decode("latin-1").encode("utf-16-le")))


def mark_within(rng, text):
    return rng.choice((put_in(rng, text, MARK), MARK + MARK + text, put_in(rng, text, MARK[:2])))


def ending_within(rng, text):
    return put_in(rng, text, b"\x1a")


def one_byte(rng, text):
    place = at(rng, text)
    byte = bytes([rng.choice((rng.choice(BYTES), rng.randrange(256)))])
    return text[:place] + rng.choice((byte, byte, b"")) + text[place + rng.choice((0, 1)):]


def cut_text(rng, text):
    return text[:at(rng, text)]


TEXT_DAMAGE = [(4, lone_return), (3, zero_bytes), (2, wide_text), (4, mark_within), (3, ending_within), (10, one_byte),
               (4, cut_text)]
