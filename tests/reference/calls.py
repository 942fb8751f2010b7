"""The two public calls of the specification, modelled with every lent cell.

An `Outcome` is the sparse form: the reply, the non-zero weights by cell and
the pairs of values. `build` and `curve` expand it to the full lent buffers. Comparing
many calls uses the sparse form, since a full table has 5,184 cells.
"""

from typing import NamedTuple, Optional

from limits import CELLS, SIDE
from reading import curve_values, side_by_side
from space import (Refusal, Space, check_build_buffers, check_coefs,
                   check_curve_buffers, check_lengths, check_position_count,
                   check_positions, check_space)
from weights import build_rows, by_column


class Reply(NamedTuple):
    """Number 0 is an answer; a refusal counts nothing."""
    count: int
    number: int
    place: int


class Outcome(NamedTuple):
    """What a call leaves behind.

    `rows` is None where the weight buffers are unchanged, an empty list where
    all 5,184 cells are 0/1, else the weight rows of the whole beam. `corner` is
    the row and column of the last part's first. `values` is None where the
    values buffer is unchanged, else a pair for each position.
    """
    reply: Reply
    rows: Optional[list] = None
    values: Optional[list] = None
    corner: tuple = (0, 0)

    def cells(self):
        """The last part's non-zero weights by cell, cells rising."""
        first_row, first_column = self.corner
        return {SIDE * place + column - first_column: weight
                for place, row in enumerate(self.rows[first_row:])
                for column, weight in row.items()}


def refused(refusal, rows=None):
    return Outcome(Reply(0, refusal.number, refusal.place), rows)


def build_outcome(breaks, degrees, orders, num_length, den_length):
    space = Space(breaks, degrees, orders)
    try:
        check_build_buffers(num_length, den_length)
        check_lengths(space)
        check_space(space)
    except Refusal as refusal:
        return refused(refusal)
    try:
        rows = build_rows(space)
    except Refusal as refusal:
        return refused(refusal, rows=[])
    return Outcome(Reply(len(rows), 0, 0), rows, corner=space.last_part_corner())


def curve_outcome(breaks, degrees, orders, coefs, positions,
                  num_length, den_length, values_length):
    space = Space(breaks, degrees, orders)
    try:
        check_curve_buffers(num_length, den_length, values_length, len(positions))
        check_lengths(space)
        check_position_count(positions)
        check_space(space)
        check_coefs(coefs, space.row_count())
        check_positions(positions, breaks)
    except Refusal as refusal:
        return refused(refusal)
    try:
        rows = build_rows(space)
    except Refusal as refusal:
        return refused(refusal, rows=[])
    values = curve_values(space, by_column(space, rows), coefs, positions)
    return Outcome(Reply(len(values), 0, 0), rows, values, space.last_part_corner())


def expand_weights(outcome, num, den):
    """Both weight buffers after the call; cells past 5,184 stay."""
    if outcome.rows is None:
        return list(num), list(den)
    new_num = [0] * CELLS + num[CELLS:]
    new_den = [1] * CELLS + den[CELLS:]
    for cell, weight in outcome.cells().items():
        new_num[cell] = weight.numerator
        new_den[cell] = weight.denominator
    return new_num, new_den


def expand_values(outcome, values):
    """The values buffer after the call; cells past twice the count stay."""
    if outcome.values is None:
        return list(values)
    written = side_by_side(outcome.values)
    return written + values[len(written):]


def build(breaks, degrees, orders, num, den):
    """The reply and both weight buffers after a build call."""
    outcome = build_outcome(breaks, degrees, orders, len(num), len(den))
    return (outcome.reply, *expand_weights(outcome, num, den))


def curve(breaks, degrees, orders, coefs, positions, num, den, values):
    """The reply, both weight buffers and the values after a curve call."""
    outcome = curve_outcome(breaks, degrees, orders, coefs, positions,
                            len(num), len(den), len(values))
    return (outcome.reply, *expand_weights(outcome, num, den),
            expand_values(outcome, values))
