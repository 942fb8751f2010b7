"""Tries what members are promised of positive and of falling coefficients, on random lists.

usage: promisescheck.py [--count N] [--seed S]

The engine has both as theorems; this is the rational program's own trial of
them, by reading, apart from any proof. Positive coefficients of a wood part:
14 never comes, and a sheet prints no low line. Coefficients that do not rise
over a part of a beam, at orders up to 1: its values do not rise, position by
position. Each trial is shown to be able to fail: at order 2 a stated list
does rise, and with a coefficient at or below zero 14 and low lines do come.
Exits non-zero on any difference.
"""

import argparse
import sys
from collections import Counter
from random import Random, SystemRandom

from calls import curve_outcome
from cases import numbers_text, pairs_text
from indices import BAD_RING, WOOD_PARTS, indices_outcome
from limits import CELLS, COEFFICIENT_LIMIT, MOST_THOUSANDTHS, PARTS, UNIT
from random_spaces import around_breakpoints, one_position, part_list, pick, space_lists
from reading import part_values, segment_of, side_by_side
from selfcheck import Tally
from space import TOO_LARGE
from walzhik_reference import Space, build_rows, by_column, sheet

LISTS = 3_000                # random lists of each kind
SAFE_ORDER = 1               # up to which falling lists give falling curves
DRAWN = 60                   # positions drawn in a space
RUN = 40                     # positions in a row, from a drawn one on
FEW_RINGS = 60               # rings of an index call
STEPS = (0, 0, 0, 1, 1, 2)   # drops from row to row of a list that hardly falls
RARE = 50                    # one list of each kind in so many, at least

# At order 2 the values of a list that does not rise can rise, by one unit.
RISING = Space([0, 700, 701, 703], [3, 3, 3], [2, 2])
RISING_COEFS = [989_268] * 3 + [989_267] * 3
RISING_POSITIONS = [179_327, 179_328]
RISING_VALUES = [253_252_353, 253_252_354]


# Falling lists.

def falling_list(rng, count):
    """Coefficients that do not rise; those that hardly fall try the rounding most."""
    top = COEFFICIENT_LIMIT
    style = pick(rng, [(40, "hardly"), (30, "any"), (20, "one drop"), (10, "extremes")])
    if style == "hardly":
        coefs = [rng.randint(-top // 2, top // 2)]
        while len(coefs) < count:
            coefs.append(coefs[-1] - rng.choice(STEPS))
        return coefs
    if style == "one drop":
        start, drop = rng.randint(1 - top, top), rng.randint(0, count)
        return [start] * drop + [start - 1] * (count - drop)
    choices = (-top, top) if style == "extremes" else range(-top, top + 1)
    return sorted((rng.choice(choices) for _ in range(count)), reverse=True)


def part_rows(space):
    """The number of rows of each part."""
    return [sum(space.degrees[first:end]) + end - first
            - sum(order + 1 for order in space.orders[first:end - 1])
            for first, end in space.parts()]


def read_positions(rng, space):
    """Positions that rise: beside every breakpoint, drawn ones, and a run of neighbours."""
    first, last = UNIT * space.breaks[0], UNIT * space.breaks[-1]
    drawn = [one_position(rng, space.breaks) for _ in range(DRAWN)]
    start = rng.randint(first, last)
    run = range(start, min(start + RUN, last + 1))
    return sorted({*around_breakpoints(space.breaks), *drawn, *run})


def first_fault(space, positions, values, climbs):
    """The first two neighbouring positions of one part whose values go the other way, or nothing."""
    part_of = [part for part, (first, end) in enumerate(space.parts()) for _ in range(first, end)]
    parts = [part_of[segment_of(space, position)] for position in positions]
    read = list(zip(positions, parts, values))
    return next(((one[0], other[0]) for one, other in zip(read, read[1:])
                 if one[1] == other[1] and (one[2] > other[2] if climbs else one[2] < other[2])), None)


def try_list(tally, rng, kinds):
    """One space with orders up to 1, and a list that falls, or climbs, over each of its parts."""
    breaks, degrees, orders = space_lists(rng)
    space = Space(breaks, degrees, [min(order, SAFE_ORDER) for order in orders])
    climbs = rng.choice((False, True))
    fallen = [falling_list(rng, rows) for rows in part_rows(space)]
    coefs = [coef for part in fallen for coef in (part[::-1] if climbs else part)]
    positions = read_positions(rng, space)
    values = part_values(space, by_column(space, build_rows(space)), coefs, positions)
    fault = first_fault(space, positions, values, climbs)
    tally.check(fault is None, "climbing" if climbs else "falling", space, coefs, fault)
    kinds.update({"climbs" if climbs else "falls": 1, "parts": len(space.parts()) > 1,
                  "one segment": len(degrees) == 1, "degree 1": 1 in degrees,
                  "order 1": SAFE_ORDER in space.orders,
                  "values that move": len(set(values)) > 1,
                  "the other way": first_fault(space, positions, values, not climbs) is not None})


def check_falling(tally, rng, count):
    values = part_values(RISING, by_column(RISING, build_rows(RISING)), RISING_COEFS, RISING_POSITIONS)
    tally.check(values == RISING_VALUES, "the stated list of order 2", values)
    tally.check(first_fault(RISING, RISING_POSITIONS, values, False) == tuple(RISING_POSITIONS),
                "a rise at order 2 is seen")
    kinds = Counter()
    for _ in range(count):
        try_list(tally, rng, kinds)
    for kind in ("climbs", "falls", "parts", "one segment", "degree 1", "order 1",
                 "values that move", "the other way"):
        tally.check(kinds[kind] > count // RARE, "lists of this kind came up", kind, kinds[kind])


# Positive coefficients.

def positive_list(rng, count):
    """Coefficients above zero, the least of them as often as the greatest."""
    style = pick(rng, [(40, "least"), (30, "extremes"), (30, "any")])
    choices = {"least": (1, 1, 2), "extremes": (1, COEFFICIENT_LIMIT),
               "any": range(1, COEFFICIENT_LIMIT + 1)}[style]
    return [rng.choice(choices) for _ in range(count)]


def sheet_of(space, coefs, positions):
    lists = {"breaks": numbers_text(space.breaks), "degrees": numbers_text(space.degrees),
             "orders": numbers_text(space.orders), "coefs": pairs_text(coefs),
             "at": numbers_text(positions)}
    return "".join(f"{name}={text}\n" for name, text in lists.items()).encode("ascii")


def is_low(printed):
    return any(line.startswith(b"low=") for line in printed.splitlines())


def try_rings(tally, rng, kinds, space):
    """An index call whose named part has positive coefficients, and the same with coefficients of any sign."""
    part = rng.choice(WOOD_PARTS)
    rings = min(space.breaks[-1] - space.breaks[0] + 1, FEW_RINGS)
    first_ring = rng.randint(space.breaks[0], space.breaks[-1] - rings + 1)
    widths = [rng.choice((0, 1, MOST_THOUSANDTHS, rng.randint(0, MOST_THOUSANDTHS))) for _ in range(rings)]
    other = part_list(rng, space.row_count())

    def number_with(named):
        coefs = side_by_side(zip(named, other) if part == WOOD_PARTS[0] else zip(other, named))
        lengths = (CELLS, CELLS, PARTS * rings, rings)
        return indices_outcome(part, space, coefs, first_ring, widths, *lengths).curve.reply.number

    positive = positive_list(rng, space.row_count())
    number = number_with(positive)
    tally.check(number in (0, TOO_LARGE), "an index call with positive coefficients", space, positive, number)
    kinds.update({"indices": number == 0, "14 with coefficients of any sign": number_with(other) == BAD_RING})


def try_sheet(tally, rng, kinds, space):
    """A sheet with positive coefficients, and one with coefficients of any sign."""
    rows = space.row_count()
    positions = [one_position(rng, space.breaks) for _ in range(DRAWN)]
    positive = side_by_side(zip(positive_list(rng, rows), positive_list(rng, rows)))
    printed = sheet(sheet_of(space, positive, positions))
    tally.check(not is_low(printed), "a sheet with positive coefficients", space, positive, positions)
    values = curve_outcome(*space, positive, positions, CELLS, CELLS, PARTS * DRAWN).values or []
    tally.check(all(value >= UNIT * min(positive) for pair in values for value in pair),
                "a value below the least coefficient", space, positive)
    other = side_by_side(zip(part_list(rng, rows), part_list(rng, rows)))
    kinds.update({"values": len(values) > 0,
                  "low lines with coefficients of any sign": is_low(sheet(sheet_of(space, other, positions)))})


def check_positive(tally, rng, count):
    kinds = Counter()
    for _ in range(count):
        space = Space(*space_lists(rng))
        try_rings(tally, rng, kinds, space)
        try_sheet(tally, rng, kinds, space)
    for kind in ("indices", "values", "14 with coefficients of any sign", "low lines with coefficients of any sign"):
        tally.check(kinds[kind] > count // RARE, "calls of this kind came up", kind, kinds[kind])


def main():
    parser = argparse.ArgumentParser(description="try the promises on positive and falling coefficients")
    parser.add_argument("--count", type=int, default=LISTS)
    parser.add_argument("--seed", type=int, default=None)
    chosen = parser.parse_args()
    seed = SystemRandom().randrange(2 ** 32) if chosen.seed is None else chosen.seed
    print(f"promisescheck: seed {seed}")
    tally, rng = Tally(), Random(seed)
    check_falling(tally, rng, chosen.count)
    check_positive(tally, rng, chosen.count)
    print(f"promisescheck: {tally.passed} passed, {tally.failed} failed")
    return 1 if tally.failed else 0


if __name__ == "__main__":
    sys.exit(main())
