"""Random files as laboratories have them: strict ones, each dialect, and each damage (§ 16).

A draft starts as the lines of some series, closed by 999, -9999 or -999. Dialects
change how the lines are written (tabs, headers, site names, letters that are not
ASCII, blank lines, ends of lines, marks), damage what they say (random_file_damage.py).
Tiny texts, lines with odd names and noise come besides. As with calls, the
model decides what the engine must say.
"""

from limits import (HUNDREDTHS, HUNDREDTHS_CLOSING, MOST_HUNDREDTHS, MOST_THOUSANDTHS, MOST_YEAR,
                    NAME_COLUMNS, NO_HEADER, NO_UNIT, TAB_COLUMNS, THOUSANDTHS, THOUSANDTHS_CLOSING,
                    UNKNOWN_CLOSING)
from random_file_damage import LINE_DAMAGE, TEXT_DAMAGE
from random_spaces import pick
from random_tucson import closed_lines, noise
from shown import MARK
from tucson import Series

NAMES = (b"OAK01   ", b"OAK02   ", b"OAK03A  ", b"PINE12  ", b"FJ-725  ", b"12345678", b"ABC 01A ",
         b"B?CH01  ", b"(x,\"y\") ")
ODD_NAMES = (b"ABC01  1", b"ABC01 11", b"ABC012-1", b"ABC01 -1", b"ABC01  -", b"ABC01  ?",
             b"ABC01 ?1", b"ABC?1234", b" ABC    ", b"       1", b"A B     ", b"FJ -725 ",
             b"AB   12a", b"AB    12", b"???     ", b"ABC01  A", b"A      b")
SITES = (b"CO523", b"AZ001A", b"CANA123", b"MT99", b"CO5234", b"BC", b"709", b"ABCDE123", b"co523b",
         b"CO523AB", b"C123")
TINY = (b"", b"\n", b"\r\n", b" ", b"\t", b"\x1a", b"\r", b"\x00", MARK, MARK[:2], MARK + MARK, b"\xff\xfe",
        b"\xfe\xff", b"\xff", b"\n\n\n\n", b"\x1a\x1a\n", b"\x1a1", MARK + b"\x1a", b" \t\r\n", MARK + b"\n",
        b"OAK01   1900   999", b"OAK01   1900 -9999\n", b"OAK01   1900  -999\n", b"\n\x1a", b"A\x1a")
NOISE_BYTES = b"\x00\x09\x0a\x0a\x0d\x1a\x20\x20\x20 ?-0199AZ\x7f\x80\xc3\xa9\xef\xbb\xbf\xff\xfe"
WORDS = (b"Quercus robur  Speyer", b"F. Schweingruber", b"M\xc3\xbcller", b"H\xf6hle", b"", b"x", b"\xe9\xe8")
ODD_WORDS = (b"QUSP 120M  4905-0825   1450 1998", b"1", b"Site 12 of 1987", b"    1450 1998", b"AB1", b"Quercus 7",
             b"-", b"12")
HIGH = (("\u00e9", "latin-1"), ("\u00fc", "utf-8"), ("\u0141", "utf-8"), ("\u2014", "utf-8"), ("\U0001f332", "utf-8"),
        ("\u00c4", "latin-1"))
UNITS = {HUNDREDTHS_CLOSING: HUNDREDTHS, THOUSANDTHS_CLOSING: THOUSANDTHS}
ODD_HEADERS, ODD_UNITS = (101, 102, 2 ** 31, 2 ** 32 - 1), (1, 10, 99, 101, 999, 1001, 9999, 2 ** 32 - 1)
OPTIONS = [(header, unit) for header in (NO_HEADER, 0, 1) for unit in (NO_UNIT, HUNDREDTHS, THOUSANDTHS)]
LONG_FILE = 60                    # series


class Draft:
    """Lines without their ends, and the two options."""

    def __init__(self, lines, unit):
        self.lines, self.header, self.unit = lines, NO_HEADER, unit

    def any_place(self, rng):
        return rng.randrange(len(self.lines))


# Series.

def a_width(rng, most):
    return pick(rng, [(90, rng.randint(1, 3000)), (6, 0), (1, HUNDREDTHS_CLOSING), (1, most), (2, rng.randint(0, most))])


def a_series(rng, name, most):
    year = pick(rng, [(12, rng.randint(1000, 2010)), (2, rng.randint(-30, 15)), (1, -999), (1, MOST_YEAR - 9)])
    count = pick(rng, [(2, 0), (3, 1), (8, rng.randint(2, 9)), (4, rng.randint(9, 24))])
    count = min(count, MOST_YEAR - year)
    widths = [a_width(rng, most) for _ in range(count)]
    if widths and rng.random() < 0.15:
        widths[rng.choice((0, -1))] = 0
    return Series(name, year, tuple(widths))


def series_lines(rng, closings, names, series_count):
    """Lines of good series, neighbours of different names."""
    lines, before = [], None
    for _ in range(series_count):
        name = rng.choice([name for name in names if name != before])
        closing = rng.choice(closings)
        most = MOST_THOUSANDTHS if closing == THOUSANDTHS_CLOSING else MOST_HUNDREDTHS
        lines += [line[:-1] for line in closed_lines(a_series(rng, name, most), closing)]
        before = name
    return lines


def new_draft(rng):
    """Lines closed in one way, or in more than one, and most often the unit that fits."""
    closing = rng.choice((HUNDREDTHS_CLOSING, THOUSANDTHS_CLOSING))
    closings = pick(rng, [(10, (closing,)), (4, (HUNDREDTHS_CLOSING, THOUSANDTHS_CLOSING)), (3, (UNKNOWN_CLOSING,)),
                          (2, (closing, UNKNOWN_CLOSING))])
    likely = NO_UNIT if UNKNOWN_CLOSING not in closings else UNITS[closing]
    unit = pick(rng, [(8, likely), (2, UNITS[closing]), (1, NO_UNIT), (1, rng.choice((HUNDREDTHS, THOUSANDTHS)))])
    names = pick(rng, [(6, NAMES), (1, NAMES + ODD_NAMES)])
    count = pick(rng, [(20, 1), (30, 2), (15, 3), (0.1, LONG_FILE)])
    return Draft(series_lines(rng, closings, names, count), unit)


# Dialects of lines.

def header_line(site, digit, words, gap=b" "):
    return (site + b" %d" % digit + gap + words).rstrip() if words else site + b" %d" % digit


def add_header(rng, draft):
    """Three lines of a header, now and then with odd words, a wrong digit, another site, or nothing behind them."""
    site = rng.choice((b"QUSP01", b"AB    ", b"M\xfcn   ", b"OAK01 "))
    lines = [header_line(site, digit, rng.choice(WORDS)) for digit in (1, 2, 3)]
    place = rng.randrange(3)
    lines[place] = pick(rng, [(6, lines[place]), (3, header_line(site, place + 1, rng.choice(ODD_WORDS))),
                              (1, header_line(site, rng.randrange(5), b"x")), (1, header_line(b"QUSP02", place + 1, b"x")),
                              (1, header_line(site, place + 1, b"x", rng.choice((b"", b"-", b"   "))))])
    draft.lines = pick(rng, [(10, lines + draft.lines), (1, lines), (1, lines[:2] + draft.lines)])


def data_like_header(rng, draft):
    """Three strict lines that have the form of a header, by characters of three bytes."""
    year = b"%4d" % rng.randint(1000, 1990)
    draft.lines[:0] = [f"\u5e74\u8f2a {digit} abc".encode() + year[:3] + b"0   812" + rng.choice((b"   999", b" -9999"))
                       for digit in (1, 2, 3)]


def name_header(rng, draft):
    """Lines of words before the data, and their count, or a few more or less."""
    words = [rng.choice(WORDS + ODD_WORDS) for _ in range(rng.randint(0, 4))]
    draft.lines[:0] = words
    draft.header = max(len(words) + pick(rng, [(6, 0), (1, 1), (1, -1), (1, 90)]), 0)


def high_names(rng, draft):
    """A letter of each name of a series that is not ASCII, in one column or in as many as it has bytes."""
    name = draft.lines[draft.any_place(rng)][:NAME_COLUMNS]
    place = rng.randrange(NAME_COLUMNS - 1)
    letter, code = rng.choice(HIGH)
    high = letter.encode(code)
    wide = rng.choice((1, 1, len(high)))
    for i, line in enumerate(draft.lines):
        if line.startswith(name) and rng.random() < 0.97:
            draft.lines[i] = line[:place] + high + line[place + wide:]


def two_readings(rng, draft):
    """A line that is strict by its bytes and by its characters."""
    draft.lines[draft.any_place(rng)] = "\U0001f332\U0001f333".encode() + b"1900  1895" + rng.choice((b" -9999", b"   999"))


def add_sites(rng, draft):
    """Site names behind column 73."""
    site = pick(rng, [(6, SITES[0]), (4, rng.choice(SITES))])
    gap = pick(rng, [(6, b" "), (1, b""), (2, b"   "), (1, b"\t")])
    draft.lines = [line.ljust(rng.choice((72, 72, 72, 72, 71))) + gap + site if rng.random() < 0.9 else line
                   for line in draft.lines]


def add_blank_lines(rng, draft):
    for _ in range(rng.randint(1, 3)):
        draft.lines.insert(rng.randint(0, len(draft.lines)), rng.choice((b"", b"", b" ", b"\t", b"        \t ")))


def unexpanded(line, least):
    """Blanks that end at a tab stop, so many or more, as a tab."""
    blocks = [line[i:i + TAB_COLUMNS] for i in range(0, len(line), TAB_COLUMNS)]
    tabbed = []
    for block in blocks:
        plain = block.rstrip(b" ")
        fits = len(block) == TAB_COLUMNS and len(block) - len(plain) >= least
        tabbed.append(plain + b"\t" if fits else block)
    return b"".join(tabbed)


def add_tabs(rng, draft):
    least, share = rng.choice((1, 2)), rng.choice((0.5, 1))
    draft.lines = [unexpanded(line, least) if rng.random() < share else line for line in draft.lines]


def add_trailing(rng, draft):
    draft.lines = [line + rng.choice((b"", b" ", b"     ", b"\t", b" \t ")) for line in draft.lines]


DIALECTS = [(0.14, add_header), (0.01, data_like_header), (0.12, name_header), (0.12, high_names),
            (0.015, two_readings), (0.12, add_sites), (0.12, add_blank_lines), (0.15, add_tabs),
            (0.15, add_trailing)]


# Dialects of the text.

def joined(rng, lines):
    end = pick(rng, [(7, b"\n"), (2, b"\r\n")])
    text = b"".join(line + end for line in lines)
    text = pick(rng, [(8, text), (1, text.removesuffix(end))])
    text = pick(rng, [(9, text), (1, MARK + text)])
    return text + pick(rng, [(9, b""), (1, rng.choice((b"\x1a", b"\x1a\r\n", b"\x1a\x1a \t\n", b"\x1a\x00")))])


def options(rng, draft):
    header = pick(rng, [(30, draft.header), (2, 0), (2, rng.randint(0, 4)), (1, rng.choice(ODD_HEADERS))])
    unit = pick(rng, [(40, draft.unit), (1, rng.choice(ODD_UNITS))])
    return header, unit


# Files.

def drawn_file(rng, damages):
    """A draft with dialects and so many damages, its text and its options."""
    draft = new_draft(rng)
    dialects = pick(rng, [(2, []), (8, [way for share, way in DIALECTS if rng.random() < share])])
    plain = [pick(rng, LINE_DAMAGE) for _ in range(damages) if rng.random() < 0.7]
    for way in plain + dialects if rng.random() < 0.7 else dialects + plain:
        way(rng, draft)
    text = joined(rng, draft.lines)
    for _ in range(damages - len(plain)):
        text = pick(rng, TEXT_DAMAGE)(rng, text)
    return text, *options(rng, draft)


def tiny_file(rng):
    data = pick(rng, [(3, rng.choice(TINY)), (2, rng.choice(TINY) + rng.choice(TINY))])
    return data, *rng.choice(OPTIONS)


def noisy_file(rng):
    data = pick(rng, [(1, noise(rng, [])), (1, bytes(rng.choice(NOISE_BYTES) for _ in range(rng.randrange(60))))])
    return data, *rng.choice(OPTIONS)


def random_file(rng):
    """The bytes of a file, a header and a unit."""
    style = pick(rng, [(50, "good"), (34, "damaged"), (8, "damaged twice"), (5, tiny_file), (3, noisy_file)])
    damages = {"good": 0, "damaged": 1, "damaged twice": 2}
    return drawn_file(rng, damages[style]) if style in damages else style(rng)
