"""Ring indices, by § 9, with the two wood parts of § 8.

Ring r is read at position 256·r, however large r is. An index is the floor of
256,000 times the width over the named part's value; an absent ring has -1. 14
comes after all of the specification's numbers and leaves the values written.
"""

from typing import NamedTuple, Optional

from calls import Outcome, Reply, curve_outcome
from limits import ABSENT_INDEX, INDEX_SCALE, MOST_THOUSANDTHS, UNIT
from space import SHORT_BUFFER, Refusal, check_curve_buffers

BAD_RING = 14
INDICES_PLACE = 3            # of number 1
WOOD_PARTS = ("earlywood", "latewood")


class RingOutcome(NamedTuple):
    """The curve call's outcome with the reply of the whole call, and the indices if there are any."""
    curve: Outcome
    indices: Optional[list] = None


def is_bad_ring(width, value):
    return not 0 <= width <= MOST_THOUSANDTHS or width > 0 and value <= 0


def ring_index(width, value):
    return INDEX_SCALE * width // value if width else ABSENT_INDEX


def indices_outcome(part, space_lists, coefs, first_ring, widths, num_length, den_length,
                    values_length, indices_length):
    """What an index call leaves behind."""
    try:
        check_curve_buffers(num_length, den_length, values_length, len(widths))
        if indices_length < len(widths):
            raise Refusal(SHORT_BUFFER, INDICES_PLACE)
    except Refusal as refusal:
        return RingOutcome(Outcome(Reply(0, refusal.number, refusal.place)))
    positions = [UNIT * (first_ring + ring) for ring in range(len(widths))]
    read = curve_outcome(*space_lists, coefs, positions, num_length, den_length, values_length)
    if read.reply.number:
        return RingOutcome(read)
    values = [pair[WOOD_PARTS.index(part)] for pair in read.values]
    bad = next((ring for ring, entry in enumerate(zip(widths, values)) if is_bad_ring(*entry)), None)
    if bad is not None:
        return RingOutcome(read._replace(reply=Reply(0, BAD_RING, bad)))
    return RingOutcome(read, [ring_index(*entry) for entry in zip(widths, values)])
