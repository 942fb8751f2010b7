"""Checks what the demands promise of every accepted space, on random ones.

Continuity at the joins is tested by differences of ordinates, not only by the
columns of conditions that the build itself uses. The exact curve is the
double sum of the specification; the grouped form that comparisons use is tested
against it.
"""

from collections import Counter
from fractions import Fraction
from math import perm
from random import Random

from generate import call_on
from limits import DISCONTINUITY, UNIT
from random_spaces import sized_space_lists, space_lists
from reading import blend, local, rounded, segment_ordinates
from space import TOO_LARGE
from walzhik_reference import (ClosenessTest, Space, by_column, coefficient_limits,
                               exact_curve, first_pair_fault, join_conditions,
                               most_weights, pair_tests, part_coefs)

POSITIONS = 5            # positions of a space held against the double sum


def end_derivative(ordinates, length, k, last):
    """Derivative k of a Bernstein piece at its last or first end."""
    degree = len(ordinates) - 1
    differences = ordinates
    for _ in range(k):
        differences = [b - a for a, b in zip(differences, differences[1:])]
    return Fraction(perm(degree, k), length ** k) * differences[-1 if last else 0]


def pieces(space, row):
    """A row's ordinates on each segment."""
    starts = space.first_columns()
    return [[row.get(column, 0) for column in range(low, high)]
            for low, high in zip(starts, starts[1:])]


def row_is_smooth(space, row):
    piece = pieces(space, row)
    return all(end_derivative(piece[join], space.length(join), k, True)
               == end_derivative(piece[join + 1], space.length(join + 1), k, False)
               for join, order in enumerate(space.orders) for k in range(order + 1))


def meets_conditions(space, row):
    return all(sum(row.get(column, 0) * factor for column, factor in condition) == 0
               for _, condition in join_conditions(space))


def check_weights(tally, space, rows, columns):
    """Demand 2 and the first half of demand 3."""
    tally.check(len(rows) == space.row_count(), "row count", space)
    tally.check(all(sum(weight for _, weight in column) == 1 for column in columns),
                "column sums", space)
    tally.check(all(weight > 0 for row in rows for weight in row.values()),
                "a stored weight is not positive", space)
    tally.check(all(row_is_smooth(space, row) for row in rows), "continuity", space)
    tally.check(all(meets_conditions(space, row) for row in rows), "conditions", space)
    # Leading columns that rise make the rows independent; with n of them they
    # span all curves that meet the conditions, each in exactly one way.
    leads = [min(row) for row in rows]
    tally.check(all(a < b for a, b in zip(leads, leads[1:])), "independent rows", space)


def check_segment(tally, space, position):
    """The position's segment, by all segments that hold it: two do on a join,
    the later one counts, on a discontinuity the earlier one."""
    held = [segment for segment in range(len(space.degrees))
            if UNIT * space.breaks[segment] <= position <= UNIT * space.breaks[segment + 1]]
    scar = len(held) == 2 and space.orders[held[0]] == DISCONTINUITY
    tally.check(local(space, position)[0] == (held[0] if scar else held[-1]),
                "segment", space, position)


def other_blend(ordinates, u, whole):
    level = ordinates
    while len(level) > 1:
        level = [g + rounded(u * (h - g), whole) for g, h in zip(level, level[1:])]
    return level[0]


def check_value(tally, space, rows, columns, coefs, position, value):
    """Demand 3 on one part's value, by the double sum itself."""
    segment, u, whole = local(space, position)
    exact = exact_curve(space, rows, coefs, position)
    twice_slack = most_weights(space, columns, segment) + space.degrees[segment]
    least, greatest = coefficient_limits(space, columns, coefs, segment)
    tally.check(2 * abs(exact - value) <= twice_slack, "closeness", space, coefs, position)
    tally.check(UNIT * least <= value <= UNIT * greatest, "limits", space, coefs, position)
    test = ClosenessTest(space, columns, coefs).segments[segment]
    tally.check(Fraction(test.exact_over_scale(u), test.scale) == exact,
                "grouped sum", space, coefs, position)
    ordinates = segment_ordinates(space, columns, coefs, segment)
    tally.check(other_blend(ordinates, u, whole) == blend(ordinates, u, whole) == value,
                "blend form", space, coefs, position)


def check_space(tally, rng, lists, seen):
    space = Space(*lists)
    call = call_on(rng, lists, "curve")
    outcome = call.outcome()
    seen[outcome.reply.number] += 1
    if outcome.reply.number:
        return
    columns = by_column(space, outcome.rows)
    check_weights(tally, space, outcome.rows, columns)
    seen["s"] = max(seen["s"], max(map(len, columns)))
    tally.check(len(outcome.values) == len(call.positions), "value count", space)
    fault = first_pair_fault(pair_tests(space, columns, call.coefs), call.positions, outcome.values)
    tally.check(fault is None, "closeness of all values", space, call.coefs, fault)
    for position in call.positions:
        check_segment(tally, space, position)
    for position, pair in list(zip(call.positions, outcome.values))[:POSITIONS]:
        for coefs, value in zip(part_coefs(call.coefs), pair):
            check_value(tally, space, outcome.rows, columns, coefs, position, value)


def check_spaces(tally, seed, count):
    """Legal lists are answered or too large; number 9 is never seen."""
    rng = Random(seed)
    seen = Counter(s=0)
    for _ in range(count):
        kind = rng.choice((space_lists, space_lists, sized_space_lists))
        check_space(tally, rng, kind(rng), seen)
    tally.check({number for number in seen if number != "s"} <= {0, TOO_LARGE},
                "numbers", seen)
    print(f"selfcheck: {seen[0]} spaces answered, {seen[TOO_LARGE]} too large; "
          f"at most {seen['s']} weights on one ordinate")
