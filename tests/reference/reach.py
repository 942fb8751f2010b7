"""When the curve reaches a width, by § 10.

The least position of the span whose value is 256 times the width or more, ends
included, by the values of the curve call. A stretch of a segment is left out
where its exact Bernstein ordinates show that no value can reach the width (the
rounding adds at most a half for each of the p blends); every other position is
read. 16 comes after all numbers of a curve call, and leaves the weights written.
"""

from fractions import Fraction
from typing import NamedTuple

from calls import Outcome, Reply, curve_outcome
from indices import WOOD_PARTS
from limits import DISCONTINUITY, UNIT
from reading import blend, part_coefs, segment_ordinates
from space import Space
from weights import by_column

NEVER_REACHED = 16
FEW_POSITIONS = 48           # so many are read one by one


class ReachOutcome(NamedTuple):
    """The curve call's outcome with the reply of the whole call, and the position: 0 after a refusal."""
    curve: Outcome
    position: int = 0


def halves(ordinates):
    """The ordinates of the left and the right half of a segment, exact."""
    left, right, level = [], [], list(ordinates)
    while level:
        left.append(level[0])
        right.append(level[-1])
        level = [(g + h) / 2 for g, h in zip(level, level[1:])]
    return left, right[::-1]


def first_offset(ordinates, whole, target, first, last):
    """The least offset from first to last whose value reaches the target, or None."""
    waiting = [(Fraction(0), Fraction(whole), [Fraction(entry) for entry in ordinates])]
    while waiting:
        start, end, local = waiting.pop()
        offsets = range(max(first, -(-start // 1)), min(last, end // 1) + 1)
        if not offsets or 2 * max(local) + len(ordinates) - 1 < 2 * target:
            continue
        if len(offsets) > FEW_POSITIONS:
            middle, (left, right) = (start + end) / 2, halves(local)
            waiting += [(middle, end, right), (start, middle, left)]
            continue
        found = next((u for u in offsets if blend(ordinates, u, whole) >= target), None)
        if found is not None:
            return found
    return None


def starts_at_discontinuity(space, segment):
    return segment > 0 and space.orders[segment - 1] == DISCONTINUITY


def first_position(space, columns, coefs, width):
    """The least position that reaches the width, or None."""
    last_segment = len(space.degrees) - 1
    for segment in range(len(space.degrees)):
        whole = UNIT * space.length(segment)
        first = 1 if starts_at_discontinuity(space, segment) else 0
        ends_here = segment == last_segment or starts_at_discontinuity(space, segment + 1)
        found = first_offset(segment_ordinates(space, columns, coefs, segment), whole, UNIT * width,
                             first, whole if ends_here else whole - 1)
        if found is not None:
            return UNIT * space.breaks[segment] + found
    return None


def reach_outcome(part, space_lists, coefs, width, num_length, den_length):
    """What a reach call leaves behind."""
    read = curve_outcome(*space_lists, coefs, [], num_length, den_length, 0)
    if read.reply.number:
        return ReachOutcome(read)
    space = Space(*space_lists)
    position = first_position(space, by_column(space, read.rows),
                              part_coefs(coefs)[WOOD_PARTS.index(part)], width)
    if position is None:
        return ReachOutcome(read._replace(reply=Reply(0, NEVER_REACHED, 0)))
    return ReachOutcome(read, position)
