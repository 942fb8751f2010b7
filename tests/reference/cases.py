"""W1 to W10 of the specification, as one table of what the papers state of them, with
the values of § 6, two in which a limit of step 1 acts,
and some in which the parts of § 8 differ.

In the specification's cases each coefficient stands for both parts. A case without
coefficients is a build; every other is a curve call. Only
stated facts stand here, none that the model worked out.
"""

from fractions import Fraction
from typing import NamedTuple

from limits import CELLS, COEFFICIENT_LIMIT, LARGEST_PLACE, PARTS
from protocol import Call, Lent
from reading import Pair, side_by_side


class Case(NamedTuple):
    """`weights` maps (row, column) to a weight, `rows` is n, and `columns`
    maps a column to all its non-zero weights, rows rising. `coefs` holds the
    numbers of the pairs side by side, `values` maps a position to its pair."""
    name: str
    breaks: list
    degrees: list
    orders: list
    coefs: list = None
    positions: list = []
    number: int = 0
    place: int = 0
    rows: int = None
    weights: dict = {}
    columns: dict = {}
    values: dict = {}


def alike(number):
    return Pair(number, number)


def both(coefs):
    """The numbers of pairs whose parts are alike."""
    return side_by_side(map(alike, coefs))


W1_SPACE = ([0, 1, 3], [2, 2], [1])
W1_WEIGHTS = {
    (0, 0): Fraction(1), (1, 1): Fraction(1),
    (1, 2): Fraction(2, 3), (1, 3): Fraction(2, 3),
    (2, 2): Fraction(1, 3), (2, 3): Fraction(1, 3),
    (2, 4): Fraction(1), (3, 5): Fraction(1),
}
UPPER_LIMIT_SPACE = ([0, 1, 512], [2, 2], [1])
LOWER_LIMIT_SPACE = ([0, 1, 2], [3, 4], [2])
W4_JOIN = [Fraction(4, 7), Fraction(3, 7)]
W5_JOIN = [Fraction(1, 4), Fraction(1, 2), Fraction(1, 4)]

CASES = [
    Case("W1", *W1_SPACE, both([0, 100, 0, 0]), [256, 512],
         rows=4, weights=W1_WEIGHTS, values={256: alike(17067), 512: alike(4267)}),
    Case("W2", *W1_SPACE, both([0, -100, 0, 0]), [256, 512],
         rows=4, weights=W1_WEIGHTS, values={512: alike(-4266)}),
    Case("W3", *W1_SPACE, both([1, 1, 1, 1]), [256, 512],
         rows=4, weights=W1_WEIGHTS, values={256: alike(256), 512: alike(256)}),
    # The join has two ordinates, the left segment's last and the right one's first.
    Case("W4", [0, 1, 3], [2, 3], [1], columns={2: W4_JOIN, 3: W4_JOIN}),
    Case("W5", [0, 1, 2], [3, 3], [2], rows=5, columns={3: W5_JOIN, 4: W5_JOIN}),
    Case("W6", [0, 10], [1], [], both([0, 10]), [1], values={1: alike(1)}),
    Case("W7 accepted", [0, 2000], [1], []),
    Case("W7 refused", [0, 2001], [1], [], number=3, place=1),
    Case("W8 accepted", [0, 1, 2], [1, 2], [0]),
    Case("W8 refused", [0, 1, 2], [1, 2], [1], number=5, place=0),
    Case("W9", [0, 1, 2], [1, 1], [-1], both([0, 10, 20, 30]), [256], values={256: alike(2560)}),
    # Beams: the buffers hold the last part; a part's span and count, and what comes first.
    Case("two parts", [0, 1, 3, 5], [2, 2, 1], [1, -1], both([0, 100, 0, 0, 7, 8]), [256, 768, 769],
         rows=6, values={256: alike(17067), 768: alike(0), 769: alike(7 * 256 + 1)}),
    Case("spans of 2,000", [0, 2000, 4000], [1, 1], [-1], rows=4),
    Case("a span of 2,001", [0, 2000, 4001], [1, 1], [-1], number=3, place=2),
    Case("order 0 does not cut", [0, 2000, 4000], [1, 1], [0], number=3, place=2),
    Case("14 segments", list(range(15)), [1] * 14, [0] * 13, number=15, place=0),
    Case("13 after one", list(range(15)), [1] * 14, [-1] + [0] * 12, number=15, place=1),
    Case("5 before 15", list(range(15)), [1] * 14, [0] * 12 + [1], number=5, place=12),
    Case("48 parts", list(range(49)), [1] * 48, [-1] * 47, rows=96),
    Case("49 segments", list(range(50)), [1] * 49, [-1] * 48, number=2, place=0),
    Case("W10 count", *W1_SPACE, both([0, 100, 0]), [256, 512], number=6, place=LARGEST_PLACE),
    Case("W10 outside", *W1_SPACE, both([0, 100, 0, 0]), [769], number=7, place=0),
    Case("W10 end", *W1_SPACE, both([0, 100, 0, 0]), [768], rows=4, weights=W1_WEIGHTS),
    # The parts differ: W1 and W2 at once; the third pair's latewood is out of range.
    Case("W1 and W2", *W1_SPACE, [0, 0, 100, -100, 0, 0, 0, 0], [512],
         rows=4, weights=W1_WEIGHTS, values={512: Pair(4267, -4266)}),
    Case("W2 and W1", *W1_SPACE, [0, 0, -100, 100, 0, 0, 0, 0], [512],
         rows=4, weights=W1_WEIGHTS, values={512: Pair(-4266, 4267)}),
    Case("latewood out of range", *W1_SPACE,
         [0, 0, 100, 100, 0, COEFFICIENT_LIMIT + 1, 0, 0], [512], number=6, place=5),
    Case("upper limit", *UPPER_LIMIT_SPACE, both([1] * 4), [256], rows=4, values={256: alike(256)}),
    Case("lower limit", *LOWER_LIMIT_SPACE, both([1] * 6), [256], rows=6, values={256: alike(256)}),
]

# One number fewer and one more than 2n; no sheet can hold them.
ODD_CASES = [
    Case("a number fewer", *W1_SPACE, [0, 0, 100, 100, 0, 0, 0], [512],
         number=6, place=LARGEST_PLACE),
    Case("a number more", *W1_SPACE, [0, 0, 100, 100, 0, 0, 0, 0, 0], [512],
         number=6, place=LARGEST_PLACE),
]

# Step 1's plain sum on the column right of a space's first join, with every
# coefficient 1, before the limits bring it to 256.
PLAIN_SUMS = [
    (W1_SPACE, 3, 256),
    (UPPER_LIMIT_SPACE, 3, 257),
    (LOWER_LIMIT_SPACE, 4, 255),
]

W1_SHEET = b"""\
breaks=0,1,3
degrees=2,2
orders=1
coefs=0:0,100:100,0:0,0:0
at=256,512
"""

W1_PRINTOUT = b"""\
n=4
w=0,0,1/1
w=1,1,1/1
w=1,2,2/3
w=1,3,2/3
w=2,2,1/3
w=2,3,1/3
w=2,4,1/1
w=3,5,1/1
v=256,17067:17067
v=512,4267:4267
"""

# (breaks, degrees, orders, number) from the readings of the specification: a span of
# 22 is the least that is refused for its size, and a partial sum is counted too.
SIZE_CASES = [
    ([0, 1, 21, 22], [5, 3, 4], [2, 2], 8),
    ([0, 1, 20, 21], [5, 3, 4], [2, 2], 0),
    ([0, 1, 1291], [3, 3], [2], 8),
]


# Old contents of the lent buffers, recognisable in a difference.
NUM_FILL, DEN_FILL, VALUES_FILL = 700_000, -900_000, 500_000


def build_call(lists):
    return Call("build", *lists, Lent(CELLS, NUM_FILL), Lent(CELLS, DEN_FILL))


def case_call(case):
    call = build_call((case.breaks, case.degrees, case.orders))
    if case.coefs is None:
        return call
    return call._replace(kind="curve", coefs=case.coefs, positions=case.positions,
                         values=Lent(PARTS * len(case.positions) + 1, VALUES_FILL))


def short_calls():
    """W1 with a cell for each position, and with one cell fewer than two for each:
    both are number 1, place 2."""
    call = case_call(CASES[0])
    needed = PARTS * len(call.positions)
    return [call._replace(values=Lent(length, VALUES_FILL)) for length in (len(call.positions), needed - 1)]


def fixed_calls():
    """The calls every comparison starts with."""
    sized = [build_call(lists) for *lists, _ in SIZE_CASES]
    return [case_call(case) for case in CASES + ODD_CASES] + sized + short_calls()


def numbers_text(numbers):
    return ",".join(map(str, numbers))


def pair_text(pair):
    return ":".join(map(str, pair))


def pairs_text(coefs):
    return ",".join(pair_text(coefs[first:first + PARTS]) for first in range(0, len(coefs), PARTS))


def case_sheet(case):
    """The sheet of a case; a build case reads no position of a curve of zeros."""
    coefs = case.coefs
    if coefs is None:
        columns = sum(case.degrees) + len(case.degrees)
        coefs = both([0] * (columns - sum(order + 1 for order in case.orders)))
    lists = {"breaks": numbers_text(case.breaks), "degrees": numbers_text(case.degrees),
             "orders": numbers_text(case.orders), "coefs": pairs_text(coefs),
             "at": numbers_text(case.positions)}
    return "".join(f"{name}={text}\n" for name, text in lists.items()).encode("ascii")


def stated_lines(case):
    """The lines that what is stated of the case puts on its printout."""
    if case.number:
        return [f"no={case.number},{case.place}"]
    lines = [f"n={case.rows}"] if case.rows is not None else []
    lines += [f"w={row},{column},{weight.numerator}/{weight.denominator}"
              for (row, column), weight in case.weights.items()]
    lines += [f"v={position},{pair_text(pair)}" for position, pair in case.values.items()]
    return lines + [f"low={position}" for position, pair in case.values.items()
                    if min(pair) <= 0]
