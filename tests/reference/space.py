"""Multi-degree spline spaces and the refusals 1 to 7 of the specification, with the
pairs of § 8 and the beams of § 4.

A space is three lists: breakpoints, degrees and continuity orders. It is a beam
of one part or more, cut at its discontinuities. Every test here looks at lists
and lengths only and comes before anything is built.
"""

from itertools import accumulate
from typing import NamedTuple

from limits import (BREAKPOINT_LIMIT, CELLS, COEFFICIENT_LIMIT, DISCONTINUITY,
                    LARGEST_PLACE, LEAST_DEGREE, MOST_DEGREE, MOST_ORDER,
                    MOST_PART_SEGMENTS, MOST_POSITIONS, MOST_SEGMENTS, PARTS,
                    SPAN_LIMIT, UNIT)

# The numbers of the specification's table.
SHORT_BUFFER, BAD_LENGTHS, BAD_BREAKPOINT, BAD_DEGREE, BAD_ORDER = 1, 2, 3, 4, 5
BAD_COEFFICIENT, BAD_POSITION, TOO_LARGE, BAD_JUMPS, BAD_TEXT = 6, 7, 8, 9, 10
TOO_MANY_SEGMENTS = 15


class Refusal(Exception):
    """A number and its place; a place has 32 bits."""

    def __init__(self, number, place):
        super().__init__(number, place)
        self.number = number
        self.place = min(place, LARGEST_PLACE)


class Space(NamedTuple):
    breaks: list
    degrees: list
    orders: list

    def length(self, segment):
        return self.breaks[segment + 1] - self.breaks[segment]

    def first_columns(self):
        """The column of each segment's ordinate 0, and last the column count."""
        return list(accumulate((degree + 1 for degree in self.degrees), initial=0))

    def column_count(self):
        return sum(self.degrees) + len(self.degrees)

    def row_count(self):
        return self.column_count() - sum(order + 1 for order in self.orders)

    def parts(self):
        """The (first segment, segment past the last) of each part, from the left."""
        cuts = [join + 1 for join, order in enumerate(self.orders) if order == DISCONTINUITY]
        return list(zip([0] + cuts, cuts + [len(self.degrees)]))

    def last_part_corner(self):
        """The rows and columns of all parts but the last."""
        first = self.parts()[-1][0]
        columns = sum(self.degrees[:first]) + first
        return columns - sum(order + 1 for order in self.orders[:first]), columns


def check_buffers(lengths):
    """Number 1. `lengths` pairs each lent buffer with the cells it needs."""
    for place, (length, needed) in enumerate(lengths):
        if length < needed:
            raise Refusal(SHORT_BUFFER, place)


def check_build_buffers(num_length, den_length):
    check_buffers([(num_length, CELLS), (den_length, CELLS)])


def check_curve_buffers(num_length, den_length, values_length, position_count):
    check_buffers([(num_length, CELLS), (den_length, CELLS),
                   (values_length, PARTS * position_count)])


def check_lengths(space):
    """Number 2, place 0: the three lengths fit one segment count."""
    segments = len(space.degrees)
    if not (1 <= segments <= MOST_SEGMENTS
            and len(space.breaks) == segments + 1
            and len(space.orders) == segments - 1):
        raise Refusal(BAD_LENGTHS, 0)


def check_position_count(positions):
    if len(positions) > MOST_POSITIONS:
        raise Refusal(BAD_LENGTHS, 1)


def check_breaks(space):
    """Number 3: every breakpoint first, the spans of the parts only after all of them."""
    breaks = space.breaks
    for place, point in enumerate(breaks):
        rising = place == 0 or point > breaks[place - 1]
        if abs(point) > BREAKPOINT_LIMIT or not rising:
            raise Refusal(BAD_BREAKPOINT, place)
    for first, end in space.parts():
        if breaks[end] - breaks[first] > SPAN_LIMIT:
            raise Refusal(BAD_BREAKPOINT, end)


def check_degrees(degrees):
    for place, degree in enumerate(degrees):
        if not LEAST_DEGREE <= degree <= MOST_DEGREE:
            raise Refusal(BAD_DEGREE, place)


def check_orders(space):
    neighbours = zip(space.degrees, space.degrees[1:])
    for place, (order, degrees) in enumerate(zip(space.orders, neighbours)):
        if not DISCONTINUITY <= order <= min(MOST_ORDER, min(degrees) - 1):
            raise Refusal(BAD_ORDER, place)


def check_parts(space):
    """Number 15, at the part's first segment."""
    for first, end in space.parts():
        if end - first > MOST_PART_SEGMENTS:
            raise Refusal(TOO_MANY_SEGMENTS, first)


def check_space(space):
    """Numbers 3 to 5 and 15, for lists whose lengths fit."""
    check_breaks(space)
    check_degrees(space.degrees)
    check_orders(space)
    check_parts(space)


def check_coefs(coefs, row_count):
    """Number 6: the numbers of the pairs, counted and placed singly."""
    if len(coefs) != PARTS * row_count:
        raise Refusal(BAD_COEFFICIENT, LARGEST_PLACE)
    for place, coef in enumerate(coefs):
        if abs(coef) > COEFFICIENT_LIMIT:
            raise Refusal(BAD_COEFFICIENT, place)


def check_positions(positions, breaks):
    first, last = UNIT * breaks[0], UNIT * breaks[-1]
    for place, position in enumerate(positions):
        if not first <= position <= last:
            raise Refusal(BAD_POSITION, place)
