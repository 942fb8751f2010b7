"""Curve values, by § 6 and § 6, § 8.

Step 1 turns the coefficients of a wood part into a segment's Bernstein ordinates
in whole 256ths; step 2 blends them in a de Casteljau triangle. Every quotient is
rounded to the nearest whole number, halves upwards. The two parts of a ring are
two curves over the same space: here each is read by itself, from first to last.
"""

from bisect import bisect_right
from typing import NamedTuple

from limits import DISCONTINUITY, PARTS, UNIT


class Pair(NamedTuple):
    """A number for each part of a ring."""
    earlywood: int
    latewood: int


def side_by_side(pairs):
    """The numbers of the pairs in list order, earlywood first."""
    return [number for pair in pairs for number in pair]


def part_coefs(coefs):
    """The coefficients of each part apart, as a pair of lists."""
    return Pair(*(coefs[part::PARTS] for part in range(PARTS)))


def segment_of(space, position):
    """The last segment that starts at or before the position; exactly on a
    discontinuity the segment that ends there."""
    segment = bisect_right(space.breaks, position // UNIT, 0, len(space.degrees)) - 1
    on_start = position == UNIT * space.breaks[segment]
    if on_start and segment > 0 and space.orders[segment - 1] == DISCONTINUITY:
        return segment - 1
    return segment


def rounded(top, bottom):
    """The whole number nearest to top / bottom; a half goes up, also below zero."""
    return (2 * top + bottom) // (2 * bottom)


def ordinate(column, coefs):
    """Step 1 for one column, given as its (row, weight) pairs."""
    total = sum(rounded(UNIT * coefs[row] * weight.numerator, weight.denominator)
                for row, weight in column)
    near = [coefs[row] for row, _ in column]
    return min(max(total, UNIT * min(near)), UNIT * max(near))


def segment_ordinates(space, columns, coefs, segment):
    first = space.first_columns()[segment]
    return [ordinate(column, coefs)
            for column in columns[first:first + space.degrees[segment] + 1]]


def blend(ordinates, u, whole):
    """Step 2: the de Casteljau triangle at u of `whole`."""
    level = ordinates
    while len(level) > 1:
        level = [rounded((whole - u) * g + u * h, whole) for g, h in zip(level, level[1:])]
    return level[0]


def local(space, position):
    """The position's segment, and u and D of the specification."""
    segment = segment_of(space, position)
    return segment, position - UNIT * space.breaks[segment], UNIT * space.length(segment)


def part_values(space, columns, coefs, positions):
    """One part's value at each position, in list order."""
    ordinates = [segment_ordinates(space, columns, coefs, segment)
                 for segment in range(len(space.degrees))] if positions else []
    values = []
    for position in positions:
        segment, u, whole = local(space, position)
        values.append(blend(ordinates[segment], u, whole))
    return values


def curve_values(space, columns, coefs, positions):
    """A pair of values per position, in list order."""
    return [Pair(*pair) for pair in zip(*(part_values(space, columns, part, positions)
                                          for part in part_coefs(coefs)))]
