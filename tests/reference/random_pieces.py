"""Random calls that ask for a piece of a curve.

Most name a segment that is there, of any degree, in a space of one part or a
beam; others name one past the last, or far past it, up to 4,294,967,295. In some
beams a part behind the named segment's is refused with 8.
"""

from typing import NamedTuple

from generate import random_call
from indices import WOOD_PARTS
from limits import CELLS, LARGEST_PLACE, MOST_SEGMENTS
from pieces import MOST_DRAWN_DEGREE
from protocol import Lent
from random_spaces import (SHORT, breaks_from, coef_list, highest_orders, joined_parts, near_size_limit, part_lists, pick,
                           row_count, segment_count, space_lists, weight_buffer)


class PieceCall(NamedTuple):
    """A piece call: a wood part, the four lists, a segment and two lent buffers."""
    part: str
    breaks: list
    degrees: list
    orders: list
    coefs: list
    segment: int
    num: Lent
    den: Lent


def low_degrees(rng, lists):
    """Degrees that the screen draws, with orders below them."""
    lengths, degrees, orders = lists
    drawn = [rng.randint(1, MOST_DRAWN_DEGREE) for _ in degrees]
    return lengths, drawn, [min(order, high) for order, high in zip(orders, highest_orders(drawn))]


def later_part_too_large(rng):
    """A few parts, and behind the first of them one whose fractions are near or over the size limit."""
    lengths, degrees = near_size_limit(rng)
    parts = [part_lists(rng, rng.randint(1, SHORT)) for _ in range(rng.randint(1, SHORT))]
    parts.insert(rng.randint(1, len(parts)), (lengths, degrees, highest_orders(degrees)))
    lengths, degrees, orders = joined_parts(parts)
    return breaks_from(rng, lengths), degrees, orders


def space_of(rng):
    style = pick(rng, [(40, "any"), (35, "low degrees"), (25, "later part")])
    if style == "any":
        return space_lists(rng)
    if style == "later part":
        return later_part_too_large(rng)
    parts = [part_lists(rng, segment_count(rng)) for _ in range(rng.choice((1, 1, 2, SHORT)))]
    lengths, degrees, orders = joined_parts([low_degrees(rng, part) for part in parts])
    return breaks_from(rng, lengths), degrees, orders


def a_segment(rng, count):
    past = (count, count, count + 1, MOST_SEGMENTS, 2 ** 31, LARGEST_PLACE - 1, LARGEST_PLACE)
    return pick(rng, [(80, rng.randrange(max(count, 1))), (8, 0), (12, rng.choice(past))])


def legal_piece(rng):
    breaks, degrees, orders = space_of(rng)
    return PieceCall(rng.choice(WOOD_PARTS), breaks, degrees, orders, coef_list(rng, row_count(degrees, orders)),
                     a_segment(rng, len(degrees)), weight_buffer(rng), weight_buffer(rng))


def any_piece(rng):
    """The lists of a curve call of any kind, refused ones among them."""
    call = random_call(rng, "curve")
    short = [max(CELLS + rng.choice((0, 0, 0, 0, 0, 0, 1, -1)), 0) for _ in range(2)]
    return PieceCall(rng.choice(WOOD_PARTS), call.breaks, call.degrees, call.orders, call.coefs,
                     a_segment(rng, len(call.degrees)), *(Lent(length, rng.randrange(1000)) for length in short))


def random_piece(rng):
    return any_piece(rng) if rng.random() < 0.25 else legal_piece(rng)
