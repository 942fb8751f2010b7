"""The exact curve of the specification and the limits that demand 3 sets around it,
with the closeness of § 6, for each part of § 8 apart: all
coefficients and values here are those of one part, except where pairs are named.

`exact_curve` is the specification's double sum word for word. `ClosenessTest` holds
the same sum grouped by ordinate over one common denominator, which is quick
enough to test every value of every call; the self-check compares the two.
"""

from fractions import Fraction
from math import comb, lcm

from limits import UNIT
from reading import Pair, local, part_coefs


def exact_curve(space, rows, coefs, position):
    """The exact curve at one position, in the units of the values."""
    segment, u, whole = local(space, position)
    degree = space.degrees[segment]
    first = space.first_columns()[segment]
    total = Fraction(0)
    for coef, row in zip(coefs, rows):
        for t in range(degree + 1):
            weight = row.get(first + t, 0)
            total += (UNIT * coef * weight
                      * comb(degree, t) * u ** t * (whole - u) ** (degree - t)
                      / Fraction(whole) ** degree)
    return total


def segment_columns(space, columns, segment):
    first = space.first_columns()[segment]
    return columns[first:first + space.degrees[segment] + 1]


def most_weights(space, columns, segment):
    """s of demand 3: the most non-zero weights on one ordinate of the segment."""
    return max(len(column) for column in segment_columns(space, columns, segment))


def coefficient_limits(space, columns, coefs, segment):
    """The least and the greatest coefficient with weight on the segment."""
    near = [coefs[row] for column in segment_columns(space, columns, segment)
            for row, _ in column]
    return min(near), max(near)


class SegmentTest:
    """Demand 3 on one segment, in whole numbers over one denominator."""

    def __init__(self, space, columns, coefs, segment):
        degree = space.degrees[segment]
        whole = UNIT * space.length(segment)
        ordinates = [UNIT * sum(coefs[row] * weight for row, weight in column)
                     for column in segment_columns(space, columns, segment)]
        denominator = lcm(*(Fraction(o).denominator for o in ordinates))
        self.factors = [int(o * denominator) * comb(degree, t)
                        for t, o in enumerate(ordinates)]
        self.scale = denominator * whole ** degree
        self.whole = whole
        self.twice_slack = most_weights(space, columns, segment) + degree
        least, greatest = coefficient_limits(space, columns, coefs, segment)
        self.least, self.greatest = UNIT * least, UNIT * greatest

    def exact_over_scale(self, u):
        """The exact curve times `scale`: a whole number."""
        degree = len(self.factors) - 1
        return sum(factor * u ** t * (self.whole - u) ** (degree - t)
                   for t, factor in enumerate(self.factors))

    def fault(self, u, value):
        """What of demand 3 the value breaks, or None."""
        apart = self.exact_over_scale(u) - value * self.scale
        if 2 * abs(apart) > self.twice_slack * self.scale:
            return "more than (s + p)/2 units from the exact curve"
        if not self.least <= value <= self.greatest:
            return "outside the coefficients with weight on the segment"
        return None


class ClosenessTest:
    """Demand 3 on all segments of one curve."""

    def __init__(self, space, columns, coefs):
        self.space = space
        self.segments = [SegmentTest(space, columns, coefs, segment)
                         for segment in range(len(space.degrees))]

    def fault(self, position, value):
        segment, u, _ = local(self.space, position)
        return self.segments[segment].fault(u, value)

    def first_fault(self, positions, values):
        """(list entry, what is wrong) of the first bad value, or None."""
        for entry, (position, value) in enumerate(zip(positions, values)):
            fault = self.fault(position, value)
            if fault:
                return entry, fault
        return None


def pair_tests(space, columns, coefs):
    """Demand 3 for each part, given the numbers of the pairs of coefficients."""
    return Pair(*(ClosenessTest(space, columns, part) for part in part_coefs(coefs)))


def first_pair_fault(tests, positions, pairs):
    """(part, list entry, what is wrong) of the first bad value, or None."""
    for part, test in tests._asdict().items():
        fault = test.first_fault(positions, [getattr(pair, part) for pair in pairs])
        if fault:
            return part, *fault
    return None
