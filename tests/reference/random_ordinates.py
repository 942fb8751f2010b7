"""Random calls that recover coefficients (§ 12).

The mix of spaces: 45 in 100 of any kind, 15 near the build's size limit, 20 of
the highest orders, 20 with two segments and ordinates near the size limit of the
undoing. In 100 of the others 55 have ordinates made from coefficients, with the
common denominator cleared (answers, and 20 where they are scaled up), 25 one of
these off by one (19, or 20 before it), 10 constant ones (8 comes at its own
join), 10 free ones. A tenth of all calls has an ordinate out of range or a count
that is off (18), another tenth damaged lists or short buffers.
"""

from fractions import Fraction
from math import lcm
from typing import NamedTuple

from limits import CELLS, MOST_DEGREE, MOST_ORDER, ORDINATE_LIMIT, SIZE_LIMIT, SPAN_LIMIT
from protocol import SPACE_WORDS, Call, Lent, line_of, read_line
from random_damage import damaged, with_entry
from random_spaces import (MIDDLE, SHORT, any_of_order_two, breaks_from, fill, highest_orders, long_enough, pick,
                           sized_space_lists, space_lists, weight_buffer)
from recovery import coefficients_outcome
from space import Refusal, Space
from weights import build_rows, conditions

SMALL, LARGE = 9, 1_000_000       # sizes of coefficients
LISTS = (*SPACE_WORDS, "ordinates")
BUFFERS = ("num", "den", "coef_num", "coef_den")
MADE, MOVED, CONSTANT, FREE, NEAR_LIMIT, CHANGED = "made", "moved", "constant", "free", "near the limit", "changed"
EXTREMES = (2 ** 31 - 1, -2 ** 31, ORDINATE_LIMIT + 1, -ORDINATE_LIMIT - 1)


class Ordinates(NamedTuple):
    """A call: three lists of a space, ordinates and four lent buffers; how the ordinates were drawn is no part of it."""
    lists: dict
    buffers: dict
    drawn: str = ""

    def line(self):
        return line_of("coefficients", self.lists, self.buffers)

    def space(self):
        return Space(*(self.lists[word] for word in SPACE_WORDS))

    def recovery(self, lengths=None):
        """What the call leaves behind, with its own buffers or others of these lengths."""
        lengths = lengths or [lent.length for lent in self.buffers.values()]
        return coefficients_outcome(self.space(), self.lists["ordinates"], *lengths)


def read_ordinates(line):
    """The call of a line, so that a printed case can be run again."""
    _, lists, buffers = read_line(line)
    return Ordinates(lists, buffers)


def drawn_coefficients(rng, count):
    """Coefficients of growing plainness: all of any size, a few neighbours, one."""
    yield [rng.randint(-LARGE, LARGE) for _ in range(count)]
    yield [rng.randint(-SMALL, SMALL) for _ in range(count)]
    for width in (rng.randint(2, SMALL), 1):
        start = rng.randrange(count)
        yield [rng.randint(1, SMALL) if start <= row < start + width else 0 for row in range(count)]


def combined(rows, coefs, columns):
    """The rows' combination: an exact ordinate for each column."""
    ordinates = [Fraction(0)] * columns
    for row, coef in zip(rows, coefs):
        for column, weight in row.items():
            ordinates[column] += coef * weight
    return ordinates


def cleared(ordinates):
    """The ordinates times their common denominator: whole numbers."""
    scale = lcm(*(ordinate.denominator for ordinate in ordinates))
    return [int(scale * ordinate) for ordinate in ordinates]


def scaled(rng, ordinates):
    """Now and then as large as the range allows, so that a step passes the size limit."""
    most = ORDINATE_LIMIT // max(1, *map(abs, ordinates))
    factor = pick(rng, [(6, 1), (1, rng.randint(1, most)), (1, most)])
    return [factor * ordinate for ordinate in ordinates]


def constant_ordinates(rng, space):
    return [rng.choice((0, 1, 256, -256, rng.randint(-LARGE, LARGE)))] * space.column_count()


def made_ordinates(rng, space):
    """Ordinates that coefficients give, all in range; constant where the build is refused."""
    try:
        rows = build_rows(space)
    except Refusal:
        return constant_ordinates(rng, space)
    for coefs in drawn_coefficients(rng, len(rows)):
        whole = cleared(combined(rows, coefs, space.column_count()))
        if max(map(abs, whole)) <= ORDINATE_LIMIT:
            return scaled(rng, whole)
    return constant_ordinates(rng, space)


def moved(rng, space, ordinates):
    """One ordinate off by one: any, or one at the first, any or the last join with conditions."""
    place = rng.randrange(len(ordinates))
    joins = [join for join, order in enumerate(space.orders) if order >= 0]
    if joins and rng.random() < 0.7:
        join = rng.choice((joins[0], rng.choice(joins), joins[-1]))
        place = space.first_columns()[join + 1] - rng.randint(0, 1)
    beside = ordinates[place] + rng.choice((-1, 1))
    return with_entry(ordinates, place, max(min(beside, ORDINATE_LIMIT), -ORDINATE_LIMIT))


def free_ordinates(rng, space):
    most = rng.choice((1, SMALL, LARGE, ORDINATE_LIMIT))
    return [rng.randint(-most, most) for _ in range(space.column_count())]


def legal_ordinates(rng, space):
    """How they are drawn, and the ordinates."""
    style = pick(rng, [(55, MADE), (25, MOVED), (10, CONSTANT), (10, FREE)])
    if style == CONSTANT:
        return style, constant_ordinates(rng, space)
    if style == FREE:
        return style, free_ordinates(rng, space)
    made = made_ordinates(rng, space)
    return style, made if style == MADE else moved(rng, space, made)


def any_size(rng, most):
    """Zero, or a whole number of any count of digits."""
    return rng.choice((-1, 0, 1)) * rng.randint(1, max(most, 1)) // 10 ** rng.randint(0, 3)


# Lengths, degrees and ordinates of two segments of order 2 whose first fraction that
# is too large is a share, a difference, a quotient.
NEAR_UNDOING_LIMIT = [
    ([1, 2], [4, 3], [0, 0, -26649613, 0, 0, 0, 0, -213196904, 0]),
    ([1, 2], [4, 3], [0, 0, 24321330, 0, 184062, 184062, 674894, 197208862, 0]),
    ([4, 3], [4, 3], [0, 0, -219414552, 0, 0, 0, 0, -246841371, 0]),
]


def near_undoing_limit(rng):
    """One of these, by any sign; a constant beside it changes little."""
    lengths, degrees, ordinates = rng.choice(NEAR_UNDOING_LIMIT)
    sign, shift = rng.choice((-1, 1)), rng.choice((0, 0, 1, -1))
    space = Space(breaks_from(rng, lengths), degrees, [MOST_ORDER])
    return space, [sign * ordinate + shift for ordinate in ordinates]


def joined_twice(rng):
    """Two segments of order 2 and ordinates that meet its three conditions, by the
    general solution in whole numbers: every fraction of the undoing can be the
    first that is too large."""
    degrees = [rng.randint(MOST_ORDER + 1, MOST_DEGREE) for _ in range(2)]
    lengths = [rng.randint(1, rng.choice((SHORT, MIDDLE, MIDDLE, SPAN_LIMIT // 2))) for _ in range(2)]
    space = Space(breaks_from(rng, lengths), degrees, [MOST_ORDER])
    first = conditions(space, 0, 1)
    second = conditions(space, 0, 2)
    left = any_size(rng, SIZE_LIMIT // first[1][1])
    slope = any_size(rng, SIZE_LIMIT // (first[1][1] * first[2][1]))
    bend = any_size(rng, SIZE_LIMIT // (second[0][1] * -second[3][1]))
    join = left + first[2][1] * slope
    right = left + (first[1][1] + first[2][1]) * slope
    before = 2 * left - join - second[3][1] * bend
    after = 2 * right - join + second[0][1] * bend
    ordinates = [any_size(rng, ORDINATE_LIMIT) for _ in range(space.column_count())]
    start = space.first_columns()[1]
    ordinates[start - 3:start + 3] = [before, left, join, join, right, after]
    return space, ordinates


def in_range(draw, rng):
    """The first of the draws with all ordinates in range."""
    while True:
        space, ordinates = draw(rng)
        if max(map(abs, ordinates)) <= ORDINATE_LIMIT:
            return space, ordinates


def smooth_space_lists(rng):
    """Orders as high as may be and lengths near each other: undoing has most to do."""
    lengths, degrees = any_of_order_two(rng)
    return breaks_from(rng, lengths), degrees, highest_orders(degrees)


def bad_ordinates(rng, ordinates):
    """Number 18: out of range, once or twice, or a count that is off."""
    style = pick(rng, [(3, "range"), (1, "both"), (1, "short"), (1, "long"), (1, "none")])
    if style in ("range", "both"):
        for _ in range(rng.randint(1, 2)):
            ordinates = with_entry(ordinates, rng.randrange(len(ordinates)), rng.choice(EXTREMES))
    longer = ordinates + ordinates[-1:]
    return {"range": ordinates, "none": [], "short": ordinates[:-1]}.get(style, longer)


def at_the_limit(rng, ordinates):
    """An ordinate just in range."""
    return with_entry(ordinates, rng.randrange(len(ordinates)), rng.choice((-1, 1)) * ORDINATE_LIMIT)


def lent_buffers(rng, ordinates):
    needed = {"num": CELLS, "den": CELLS, "coef_num": len(ordinates), "coef_den": len(ordinates)}
    buffers = {name: long_enough(rng, cells) for name, cells in needed.items()}
    if rng.random() < 0.05:
        for name in rng.sample(BUFFERS, rng.choice((1, 1, 2))):
            buffers[name] = Lent(max(needed[name] - rng.choice((1, 1, 2, needed[name])), 0), fill(rng))
    return buffers


def legal_call(rng):
    """A space, how its ordinates are drawn, and the ordinates."""
    kind = pick(rng, [(45, space_lists), (15, sized_space_lists), (20, smooth_space_lists),
                      (16, joined_twice), (4, near_undoing_limit)])
    if kind in (joined_twice, near_undoing_limit):
        space, ordinates = in_range(kind, rng)
        return space, NEAR_LIMIT, ordinates
    space = Space(*kind(rng))
    return space, *legal_ordinates(rng, space)


def random_ordinates(rng):
    (breaks, degrees, orders), drawn, ordinates = legal_call(rng)
    change = pick(rng, [(80, None), (9, bad_ordinates), (3, at_the_limit), (8, "lists")])
    drawn = CHANGED if change else drawn
    if change == "lists":
        buffers = (weight_buffer(rng), weight_buffer(rng))
        call = damaged(rng, Call("build", breaks, degrees, orders, *buffers), 1)
        breaks, degrees, orders = call.breaks, call.degrees, call.orders
    elif change:
        ordinates = change(rng, ordinates)
    lists = dict(zip(LISTS, (breaks, degrees, orders, ordinates)))
    return Ordinates(lists, lent_buffers(rng, ordinates), drawn)
