"""Random calls for the lines of the table (§ 17) and random inputs of the program rings (§ 18).

Names hold commas, quotation marks and what a spreadsheet would compute; numbers
lie on both sides of zero, on halves and at the ends of their types. An input of
the program is a wood, a sheet over years and a Tucson text, each good or damaged
in the ways that its own section names.
"""

from generate import call_on, random_call
from indices import WOOD_PARTS
from limits import (ABSENT_INDEX, BREAKPOINT_LIMIT, HUNDREDTHS_CLOSING, LEAST_YEAR, MOST_HUNDREDTHS, MOST_POSITIONS,
                    MOST_THOUSANDTHS, MOST_YEAR, PARTS, THOUSANDTHS_CLOSING)
from random_damage import damaged
from random_sheets import call_sheet, damaged_text
from random_spaces import pick, sized_space_lists, space_lists
from random_tucson import BAD_NAMES, PLAIN_LINE, TEXT_DAMAGE, closed_lines
from tucson import Series

NAMES = (b"OAK01   ", b"  A B   ", b"A,B     ", b"\"OAK\"   ", b"\"       ", b",,,,,,,,", b"\"\"\"\"\"\"\"\"", b"=1+1    ",
         b"-1      ", b"@SUM(A1)", b"+1      ", b"       x", b"a\",\"b   ", b" ,    \" ", b"12345678", b"a'b;c   ", b"no=7,1  ")
SHORT_NAMES = (b"", b"OAK01", b"OAK01  ", b"OAK01    ", b"\"" * 9, b" " * 7)
LEAST_INT, MOST_INT, LEAST_LONG, MOST_LONG = -2 ** 31, 2 ** 31 - 1, -2 ** 63, 2 ** 63 - 1
EDGES = [sign * (10 ** power + step) for sign in (-1, 1) for power in range(7) for step in (-1, 0, 1)]
HALVES = [16 * odd for odd in range(-9, 10, 2)]      # values whose millionths end in a half
WOOD_DAMAGE = (b"", b"\n", b"wood=\n", b"wood=Earlywood\n", b"wood=earlywood \n", b"wood=latewood\r\n", b"wood=latewood",
               b"wood=earlywoo\n", b"wood=earlywoodd\n", b"Wood=latewood\n", b" wood=latewood\n", b"latewood\n",
               b"wood=latewood,earlywood\n", b"\nwood=latewood\n", b"\xef\xbb\xbfwood=latewood\n", b"wood=both\n",
               b"wood=earlywood\nwood=earlywood\n")


# Calls.

def a_width(rng):
    return pick(rng, [(60, rng.randint(0, 4000)), (10, 0), (15, rng.choice(EDGES)), (5, rng.choice((LEAST_INT, MOST_INT))),
                      (10, rng.randint(LEAST_INT, MOST_INT))])


def a_value(rng):
    return pick(rng, [(50, rng.randint(0, 10 ** 6)), (10, rng.randint(-300, 300)), (10, rng.choice(HALVES)),
                      (10, rng.choice(EDGES)), (5, rng.choice((LEAST_INT, MOST_INT))), (15, rng.randint(LEAST_INT, MOST_INT))])


def an_index(rng):
    return pick(rng, [(50, rng.randint(0, 3000)), (15, ABSENT_INDEX), (10, rng.choice(EDGES)), (5, -2),
                      (5, rng.choice((LEAST_LONG, LEAST_LONG + 1, MOST_LONG))), (15, rng.randint(LEAST_LONG, MOST_LONG))])


def ring_count(rng):
    return pick(rng, [(10, 0), (20, 1), (160, rng.randint(2, 12)), (20, rng.randint(12, 90)), (0.2, MOST_POSITIONS),
                      (0.2, MOST_POSITIONS + rng.randint(1, 900))])


def first_year(rng, count):
    return pick(rng, [(10, rng.randint(900, 2020)), (3, rng.randint(-30, 5)), (1, rng.choice((LEAST_YEAR, MOST_YEAR))),
                      (1, LEAST_INT), (1, MOST_INT), (1, MOST_INT - count // 2), (1, rng.randint(LEAST_INT, MOST_INT))])


def other_length(rng, entries):
    """A list shorter or longer than it was."""
    return rng.choice((entries[:-1], entries[:-2], entries + entries[:1] + [0], entries + [0, 0], []))


def random_lines(rng):
    """Name, first year, widths, values and indices of a call, most often lists that fit."""
    count = ring_count(rng)
    name = pick(rng, [(60, rng.choice(NAMES)), (30, bytes(rng.randint(32, 126) for _ in range(8))), (6, rng.choice(BAD_NAMES)),
                      (4, rng.choice(SHORT_NAMES))])
    lists = [[a_width(rng) for _ in range(count)], [a_value(rng) for _ in range(PARTS * count)],
             [an_index(rng) for _ in range(count)]]
    if rng.random() < 0.08:
        place = rng.randrange(len(lists))
        lists[place] = other_length(rng, lists[place])
    return name, first_year(rng, count), *lists


# Inputs of the program.

def over_years(rng, lists):
    """The same space, most often where Tucson files have their years."""
    breaks, degrees, orders = lists
    start = pick(rng, [(6, rng.randint(800, 1900)), (3, rng.randint(-1100, 10)), (1, breaks[0])])
    start = min(start, BREAKPOINT_LIMIT - (breaks[-1] - breaks[0]))
    return [point - breaks[0] + start for point in breaks], degrees, orders


def above_zero(coefs):
    return [min(abs(coef) + 1, 10 ** 6) for coef in coefs]


def good_call(rng, lists):
    call = call_on(rng, over_years(rng, lists), "curve")
    return call._replace(coefs=above_zero(call.coefs)) if rng.random() < 0.7 else call


def ring_series(rng, breaks, name, most):
    """A series within the span, up to its last year, or one past it."""
    least, greatest = max(breaks[0], LEAST_YEAR), min(breaks[-1], MOST_YEAR - 1)
    first = rng.randint(least, greatest) if least <= greatest else rng.randint(LEAST_YEAR, MOST_YEAR - 1)
    first = pick(rng, [(20, first), (1, max(least - 1, LEAST_YEAR)), (3, min(max(least, LEAST_YEAR), MOST_YEAR - 1))])
    room = max(min(breaks[-1], MOST_YEAR - 1) - first + 1, 0)
    count = pick(rng, [(2, 0), (12, min(rng.randint(1, 12), room)), (4, min(room, 60)), (1, min(room + 1, 70))])
    widths = [pick(rng, [(8, rng.randint(1, 3000)), (2, 0), (1, rng.randint(0, most))]) for _ in range(count)]
    return Series(name, first, tuple(widths[:max(MOST_YEAR - first, 0)]))


def ring_text_lines(rng, breaks):
    """Lines of series over the years of the space; neighbours have different names."""
    lines, before = [], None
    for _ in range(pick(rng, [(1, 0), (3, 1), (6, rng.randint(2, 4))])):
        name = rng.choice([name for name in NAMES if name != before])
        closing, most = rng.choice(((HUNDREDTHS_CLOSING, MOST_HUNDREDTHS), (THOUSANDTHS_CLOSING, MOST_THOUSANDTHS)))
        lines += closed_lines(ring_series(rng, breaks, name, most), closing)
        before = name
    return lines


def wood_line(rng):
    return b"wood=%b\n" % rng.choice(WOOD_PARTS).encode()


def span_of(breaks):
    """Breakpoints to draw years from, also where the list is none."""
    return breaks if len(breaks) > 1 and -BREAKPOINT_LIMIT <= breaks[0] < breaks[-1] <= BREAKPOINT_LIMIT else [1900, 1950]


def damaged_lines(rng, lines):
    return pick(rng, TEXT_DAMAGE)(rng, lines or [PLAIN_LINE])


def random_input(rng):
    """Everything on the program's standard input."""
    style = pick(rng, [(40, "good"), (8, "size"), (20, "lists"), (14, "sheet"), (12, "text"), (5, "wood"), (4, "cut")])
    lists = sized_space_lists(rng) if style == "size" else space_lists(rng)
    call = good_call(rng, lists)
    if style == "lists":
        call = pick(rng, [(3, damaged(rng, call, 1)), (2, random_call(rng, "curve"))])
    sheet = damaged_text(rng, call) if style == "sheet" else call_sheet(call)
    lines = ring_text_lines(rng, span_of(call.breaks))
    text = damaged_lines(rng, lines) if style == "text" else b"".join(lines)
    whole = (rng.choice(WOOD_DAMAGE) if style == "wood" else wood_line(rng)) + sheet + text
    return whole[:rng.randrange(len(whole) + 1)] if style == "cut" else whole
