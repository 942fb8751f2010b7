"""Tries what members can count on (docs/THEOREMS.md), on random spaces.

usage: memberscheck.py [--count N] [--seed S]

The engine has all of it as theorems, but the mirror and the two units at order 2,
which are tried alone; this is the rational program's own trial, by reading, apart
from any proof: raised and moved coefficients, which rows act
on which segment, values at the ends, a beam and its parts, moved and scaled
breakpoints, equal coefficients and straight lines, minimal support, pieces between
the positions, indices beside the exact curve, and the numbers of each call with their places. Bounds that can't be less
are reached by stated examples. Exits non-zero on any difference.
"""

import argparse
import sys
from collections import Counter
from fractions import Fraction
from random import Random, SystemRandom
from typing import NamedTuple

from limits import BREAKPOINT_LIMIT, COEFFICIENT_LIMIT, DISCONTINUITY, INDEX_SCALE, MOST_THOUSANDTHS, SPAN_LIMIT, UNIT
from numberscheck import check_numbers
from promisescheck import SAFE_ORDER, falling_list, part_rows, read_positions
from random_spaces import part_list, space_lists
from reading import part_values, segment_of, segment_ordinates
from recovery import recover
from selfcheck import Tally
from space import Refusal, Space
from walzhik_reference import build_rows, by_column, coefficient_limits, exact_curve, most_weights

SPACES = 3_000               # random spaces
RARE = 50                    # one space of each kind in so many, at least
TRIED = 8                    # positions whose exact curve is worked out
MOVES = (0, 1, 2, 1_000)     # how far coefficients are off
FACTORS = (1, 1, 2, 3, 7)    # of breakpoints
SHARES = 997                 # of a segment, between the positions
FEW_ROWS = 24                # of spaces whose rows' supports are tried
PRIME = 2 ** 61 - 1          # larger than every denominator

# Where the bound on moved values is reached: the space, its list, the position, the values before and after one more.
REACHED = [(Space([0, 1, 3], [2, 2], [1]), [8, 2, 7, 3], 256, 938, 1195),
           (Space([0, 3, 10], [3, 3], [2]), [26, 7, 14, 12, 8], 768, 2659, 2917)]
# Where a list that does not rise gives values that rise by two units.
TWO_UNITS = Space([0, 299, 300, 1_112], [3, 3, 3], [2, 2]), [-201_281] * 3 + [-201_282] * 3


class Curve(NamedTuple):
    """An accepted space with its weights, and positions in it that rise."""
    space: Space
    rows: list
    columns: list
    positions: list

    def values(self, coefs, positions=None):
        return part_values(self.space, self.columns, coefs, self.positions if positions is None else positions)

    def segments(self):
        return [segment_of(self.space, position) for position in self.positions]

    def most(self, segment):
        return most_weights(self.space, self.columns, segment)


def curve_on(rng, space):
    rows = build_rows(space)
    return Curve(space, rows, by_column(space, rows), read_positions(rng, space))


def first_rows(space):
    """For each segment the first row that acts on it."""
    rows = [0]
    for degree, order in zip(space.degrees, space.orders):
        rows.append(rows[-1] + degree - order)
    return rows


# Coefficients raised, moved, equal, and one of them changed.

def try_raised(tally, rng, curve):
    coefs = part_list(rng, len(curve.rows))
    raised = [coef + rng.choice((0, 0, 1, rng.randint(0, COEFFICIENT_LIMIT))) for coef in coefs]
    lower, higher = curve.values(coefs), curve.values(raised)
    tally.check(all(low <= high for low, high in zip(lower, higher)), "raised", curve.space, coefs, raised)


def try_moved(tally, rng, curve):
    coefs, most = part_list(rng, len(curve.rows)), rng.choice(MOVES)
    moved = [coef + rng.randint(-most, most) for coef in coefs]
    for segment, one, other in zip(curve.segments(), curve.values(coefs), curve.values(moved)):
        limit = UNIT * most + curve.most(segment) - 1
        tally.check(abs(one - other) <= limit, "moved", curve.space, coefs, moved, one, other)


def try_one_changed(tally, rng, curve, kinds):
    coefs, row = part_list(rng, len(curve.rows)), rng.randrange(len(curve.rows))
    changed = coefs[:row] + [coefs[row] + rng.randint(1, COEFFICIENT_LIMIT)] + coefs[row + 1:]
    starts, space = first_rows(curve.space), curve.space
    for segment, one, other in zip(curve.segments(), curve.values(coefs), curve.values(changed)):
        acts = starts[segment] <= row <= starts[segment] + space.degrees[segment]
        tally.check(acts or one == other, "one changed", space, coefs, row, segment)
        kinds["a value elsewhere"] += not acts
        kinds["a value that it moves"] += one != other


def try_support(tally, curve):
    """Which rows have weight on which segment, and how far a row reaches."""
    space, starts, columns = curve.space, first_rows(curve.space), curve.space.first_columns()
    acting = [{row for column in curve.columns[columns[j]:columns[j + 1]] for row, _ in column}
              for j in range(len(space.degrees))]
    for segment, rows in enumerate(acting):
        tally.check(rows == set(range(starts[segment], starts[segment] + space.degrees[segment] + 1)), "rows", space, segment)
    for segment, order in enumerate(space.orders):
        reach = max(other for row in acting[segment] for other, rows in enumerate(acting) if row in rows)
        tally.check(reach <= segment + order + 1, "reach", space, segment, reach)


def try_ends(tally, rng, curve):
    coefs, breaks = part_list(rng, len(curve.rows)), curve.space.breaks
    last_rows = [sum(part_rows(curve.space)[:part + 1]) - 1 for part in range(len(curve.space.parts()))]
    ends = [breaks[end] for _, end in curve.space.parts()]
    stated = [UNIT * coefs[0]] + [UNIT * coefs[row] for row in last_rows]
    values = curve.values(coefs, [UNIT * point for point in [breaks[0]] + ends])
    tally.check(values == stated, "ends", curve.space, coefs, values)


def try_equal(tally, rng, curve):
    coef = rng.randint(-COEFFICIENT_LIMIT, COEFFICIENT_LIMIT)
    tally.check(set(curve.values([coef] * len(curve.rows))) == {UNIT * coef}, "equal", curve.space, coef)


# Beams.

def try_parts(tally, rng, curve):
    """The values of each part by itself, but at a first breakpoint that is a discontinuity."""
    space, coefs, row = curve.space, part_list(rng, len(curve.rows)), 0
    for (first, end), count in zip(space.parts(), part_rows(space)):
        part = Space(space.breaks[first:end + 1], space.degrees[first:end], space.orders[first:end - 1])
        own = [position for position in curve.positions if first <= segment_of(space, position) < end]
        alone = part_values(part, by_column(part, build_rows(part)), coefs[row:row + count], own)
        tally.check(alone == curve.values(coefs, own), "parts", space, coefs, first)
        row += count


def try_falling(tally, rng):
    breaks, degrees, orders = space_lists(rng)
    curve = curve_on(rng, Space(breaks, degrees, [min(order, SAFE_ORDER) for order in orders]))
    values = curve.values(falling_list(rng, len(curve.rows)))
    tally.check(values == sorted(values, reverse=True), "falls over a beam", curve.space)


# Moved and scaled breakpoints.

def try_scaled(tally, rng, curve, kinds):
    space, factor = curve.space, rng.choice(FACTORS)
    least, greatest = -BREAKPOINT_LIMIT - factor * space.breaks[0], BREAKPOINT_LIMIT - factor * space.breaks[-1]
    if least > greatest or any(factor * (space.breaks[end] - space.breaks[first]) > SPAN_LIMIT for first, end in space.parts()):
        return
    move = rng.randint(least, greatest)
    moved = space._replace(breaks=[factor * point + move for point in space.breaks])
    positions = [factor * position + UNIT * move for position in curve.positions]
    coefs, rows = part_list(rng, len(curve.rows)), build_rows(moved)
    tally.check(rows == curve.rows, "weights of a moved space", space, factor, move)
    tally.check(part_values(moved, curve.columns, coefs, positions) == curve.values(coefs), "moved space", space, factor, move)
    kinds["scaled"] += factor > 1


# Straight lines.

def line_ordinates(space, start, slope):
    return [start + slope * (space.breaks[j] + Fraction(t * space.length(j), degree))
            for j, degree in enumerate(space.degrees) for t in range(degree + 1)]


def middle_node(space, join):
    """The node of the middle row at a join of order 2."""
    (p, q), (a, b) = space.degrees[join:join + 2], (space.length(join), space.length(join + 1))
    return space.breaks[join + 1] + Fraction(p * (p - 1) * b * b - q * (q - 1) * a * a, p * q * ((p - 1) * b + (q - 1) * a))


def try_line(tally, rng, curve):
    """One list, with nodes that rise inside a part; each is an ordinate's place, but the middle one at a join of order 2."""
    space, places = curve.space, line_ordinates(curve.space, 0, 1)
    try:
        _, nodes = recover(space, places)
    except Refusal:
        return
    row = 0
    for count in part_rows(space):
        part = nodes[row:row + count]
        tally.check(all(one < other for one, other in zip(part, part[1:])), "nodes", space, nodes)
        row += count
    middle = {starts + space.degrees[join] - 1: middle_node(space, join)
              for join, (starts, order) in enumerate(zip(first_rows(space), space.orders)) if order > SAFE_ORDER}
    for row, node in enumerate(nodes):
        tally.check(node == middle[row] if row in middle else node in places, "node", space, row, node)
    for column, place in zip(curve.columns, places):
        tally.check(sum(weight * nodes[row] for row, weight in column) == place, "line", space)


# Minimal support.

def rank(rows):
    """The rank of rows of whole numbers modulo a prime, which is no more than that of the fractions."""
    found, rows = 0, [[entry % PRIME for entry in row] for row in rows]
    while rows:
        row = rows.pop()
        place = next((column for column, entry in enumerate(row) if entry), None)
        if place is not None:
            found, inverse = found + 1, pow(row[place], -1, PRIME)
            rows = [[(entry - other[place] * inverse * mine) % PRIME for entry, mine in zip(other, row)] if other[place] else other
                    for other in rows]
    return found


def try_minimal(tally, rng, curve, kinds):
    """Where a row has no weight, the others vanish together only if each of them is left out: a curve that lives there is a multiple."""
    if len(curve.rows) > FEW_ROWS:
        return
    own = rng.randrange(len(curve.rows))
    free = [column for column, weights in enumerate(curve.columns) if own not in dict(weights)]
    others = [[dict(curve.columns[column]).get(row, Fraction(0)) for column in free] for row in range(len(curve.rows)) if row != own]
    whole = [[entry.numerator * pow(entry.denominator, -1, PRIME) for entry in row] for row in others]
    tally.check(rank(whole) == len(whole), "minimal support", curve.space, own)
    kinds["minimal support"] += 1


# Pieces between the positions.

def at_share(ordinates, share):
    """The polynomial of these ordinates at a share of its segment, by the triangle, exactly."""
    while len(ordinates) > 1:
        ordinates = [(1 - share) * one + share * other for one, other in zip(ordinates, ordinates[1:])]
    return ordinates[0]


def try_between(tally, rng, curve):
    coefs, segment = part_list(rng, len(curve.rows)), rng.randrange(len(curve.space.degrees))
    first = curve.space.first_columns()[segment]
    columns = curve.columns[first:first + curve.space.degrees[segment] + 1]
    exact = [sum(UNIT * coefs[row] * weight for row, weight in column) for column in columns]
    drawn = segment_ordinates(curve.space, curve.columns, coefs, segment)
    share = Fraction(rng.randint(0, SHARES), SHARES)
    off = at_share(drawn, share) - at_share(exact, share)
    tally.check(abs(off) <= Fraction(curve.most(segment), 2), "between positions", curve.space, coefs, segment, share)


# At order 2: the exact ordinates are proved to fall; the two units are tried, not proved.

def try_two_units(tally, rng, curve, kinds):
    """A list that does not rise gives exact ordinates that do not, and values that rise by at most two units, across discontinuities too."""
    coefs = falling_list(rng, len(curve.rows))
    exact = [sum(coefs[row] * weight for row, weight in column) for column in curve.columns]
    tally.check(all(other <= one for one, other in zip(exact, exact[1:])), "exact ordinates fall", curve.space, coefs)
    values = curve.values(coefs)
    least = values[0]
    for value in values:
        tally.check(value <= least + 2, "rises by two units at most", curve.space, value, least)
        kinds["a value that rises"] += value > least
        least = min(least, value)


def check_two_units(tally):
    """Two units can't be less."""
    space, coefs = TWO_UNITS
    one, other = part_values(space, by_column(space, build_rows(space)), coefs, [76_288, 76_672])
    tally.check((one, other) == (-51_528_006, -51_528_004), "two units", one, other)


# The mirror: tried, not proved.

def mirrored(space):
    """All breakpoints with the other sign, and all lists reversed."""
    return Space([-point for point in reversed(space.breaks)], space.degrees[::-1], space.orders[::-1])


def try_mirror(tally, rng, curve, kinds):
    """The mirrored space has the mirrored weights and values, but at discontinuities, where both are accepted."""
    space, coefs = curve.space, part_list(rng, len(curve.rows))
    try:
        rows = build_rows(mirrored(space))
    except Refusal:
        kinds["a mirror that is refused"] += 1
        return
    last = len(curve.columns) - 1
    back = [{last - column: weight for column, weight in row.items()} for row in reversed(curve.rows)]
    tally.check(rows == back, "mirrored weights", space)
    cuts = {UNIT * point for point, order in zip(space.breaks[1:], space.orders) if order == DISCONTINUITY}
    positions = [position for position in curve.positions if position not in cuts]
    values = part_values(mirrored(space), by_column(mirrored(space), rows), coefs[::-1], [-position for position in positions])
    tally.check(values == curve.values(coefs, positions), "mirrored values", space, coefs)
    kinds["mirrored"] += 1


def check_mirror(tally):
    """A space that 8 refuses while its mirror is accepted."""
    space = Space([0, 1, 1291], [3, 3], [2])
    try:
        build_rows(space)
        tally.check(False, "a space that is refused", space)
    except Refusal as refusal:
        tally.check(refusal.number == 8 and len(build_rows(mirrored(space))) == 5, "a mirror that is accepted", refusal)


# Indices.

def try_indices(tally, rng, curve, kinds):
    coefs = [rng.randint(1, rng.choice((20, 2_000, COEFFICIENT_LIMIT))) for _ in curve.rows]
    for position in rng.sample(curve.positions, min(TRIED, len(curve.positions))):
        segment, width = segment_of(curve.space, position), rng.randint(0, MOST_THOUSANDTHS)
        value, exact = curve.values(coefs, [position])[0], exact_curve(curve.space, curve.rows, coefs, position)
        error = Fraction(curve.most(segment) + curve.space.degrees[segment], 2)
        index, true = INDEX_SCALE * width // value, INDEX_SCALE * width // exact
        tally.check(INDEX_SCALE * width // (value + error) <= true, "lower index", curve.space, coefs, position)
        tally.check(value <= error or true <= INDEX_SCALE * width // (value - error), "upper index", curve.space, coefs, position)
        least = coefficient_limits(curve.space, curve.columns, coefs, segment)[0]
        if 125 * width < 8 * least * least:
            tally.check(abs(index - true) <= 1, "index within one", curve.space, coefs, position, width)
            kinds["an index one away"] += index != true
            kinds["an index that is close"] += 1


def try_space(tally, rng, kinds):
    space = Space(*space_lists(rng))
    try:
        curve = curve_on(rng, space)
    except Refusal:
        kinds["refused"] += 1
        return
    for trial in (try_raised, try_moved, try_ends, try_equal, try_parts, try_line, try_between):
        trial(tally, rng, curve)
    try_support(tally, curve)
    for trial in (try_one_changed, try_scaled, try_minimal, try_two_units, try_mirror, try_indices):
        trial(tally, rng, curve, kinds)
    kinds.update({"beam": len(space.parts()) > 1, "order 2": 2 in space.orders})


def check_reached(tally):
    """The bound on moved values can't be less."""
    for space, coefs, position, before, after in REACHED:
        columns = by_column(space, build_rows(space))
        one, other = (part_values(space, columns, listed, [position])[0] for listed in (coefs, [coef + 1 for coef in coefs]))
        most = max(most_weights(space, columns, segment_of(space, position)), 1)
        tally.check((one, other) == (before, after), "stated values", space, one, other)
        tally.check(other - one == UNIT + most - 1, "a bound that is reached", space)


def main():
    parser = argparse.ArgumentParser(description="try what members can count on")
    parser.add_argument("--count", type=int, default=SPACES)
    parser.add_argument("--seed", type=int, default=None)
    chosen = parser.parse_args()
    seed = SystemRandom().randrange(2 ** 32) if chosen.seed is None else chosen.seed
    print(f"memberscheck: seed {seed}")
    tally, rng, kinds = Tally(), Random(seed), Counter()
    for check in (check_reached, check_two_units, check_mirror):
        check(tally)
    for _ in range(chosen.count):
        try_space(tally, rng, kinds)
        try_falling(tally, rng)
    for kind in ("beam", "order 2", "scaled", "a value elsewhere", "a value that it moves", "an index that is close", "minimal support", "mirrored"):
        tally.check(kinds[kind] > chosen.count // RARE, "this kind came up", kind, kinds[kind])
    tally.check(kinds["an index one away"] > 0, "an index that differs from the exact one came up")
    check_numbers(tally, rng, chosen.count)
    print(f"memberscheck: {tally.passed} passed, {tally.failed} failed")
    return 1 if tally.failed else 0


if __name__ == "__main__":
    sys.exit(main())
