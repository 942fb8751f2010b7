"""Random calls that ask when a curve reaches a width.

Most curves are drawn for the question: falling, rising, wavy, flat, and beams
whose later parts lie higher, so that the width is first met past a discontinuity.
Most widths are those of an ordinate or of the least or greatest of some values,
or one beside, others the ends of 32 bits. Most spans are short: the model reads
position by position where a curve runs close to the width.
"""

from typing import NamedTuple

from generate import random_call
from indices import WOOD_PARTS
from limits import CELLS, COEFFICIENT_LIMIT, DISCONTINUITY, UNIT
from protocol import Lent
from random_spaces import (SHORT, around_breakpoints, beam_lists, breaks_from, coef_list, joined_parts,
                           one_position, part_lists, pick, row_count, segment_count, weight_buffer)
from reading import part_coefs, part_values, segment_ordinates, side_by_side
from space import Refusal, Space
from weights import build_rows, by_column

WIDTH_ENDS = (-2 ** 31, -2 ** 31 + 1, 2 ** 31 - 2, 2 ** 31 - 1)
VALUE_ENDS = (-COEFFICIENT_LIMIT - 1, -COEFFICIENT_LIMIT, COEFFICIENT_LIMIT, COEFFICIENT_LIMIT + 1)
READ_POSITIONS = 20          # whose least and greatest value is taken


class ReachCall(NamedTuple):
    """A reach call: a wood part, the four lists, a width and two lent buffers."""
    part: str
    breaks: list
    degrees: list
    orders: list
    coefs: list
    width: int
    num: Lent
    den: Lent


def space_of(rng):
    """Breakpoints, degrees and orders; two in three with segments of at most a few rings."""
    style = pick(rng, [(45, "one part"), (35, "parts"), (20, "beam")])
    if style == "one part":
        lengths, degrees, orders = part_lists(rng, segment_count(rng))
    elif style == "parts":
        lengths, degrees, orders = joined_parts([part_lists(rng, rng.randint(1, SHORT))
                                                 for _ in range(rng.randint(2, SHORT))])
    else:
        lengths, degrees, orders = beam_lists(rng)
    if rng.random() < 0.65:
        lengths = [rng.randint(1, SHORT) for _ in lengths]
    return breaks_from(rng, lengths), degrees, orders


def rows_by_part(degrees, orders):
    """The number of rows of each part of a beam."""
    counts, start = [], 0
    for join, order in enumerate([*orders, DISCONTINUITY]):
        if order == DISCONTINUITY:
            counts.append(row_count(degrees[start:join + 1], orders[start:join]))
            start = join + 1
    return counts


def shaped(rng, degrees, orders):
    """The coefficients of one wood part."""
    count, top = row_count(degrees, orders), rng.choice((3, 40, 3_000, COEFFICIENT_LIMIT))
    style = pick(rng, [(20, "falling"), (15, "rising"), (25, "wavy"), (15, "flat"), (25, "higher parts")])
    drawn = [rng.randint(-top, top) for _ in range(count)]
    if style in ("falling", "rising"):
        return sorted(drawn, reverse=style == "falling")
    if style == "wavy":
        return [abs(coef) * (-1) ** (row // rng.choice((1, 1, 2))) for row, coef in enumerate(drawn)]
    if style == "flat":
        return [rng.choice((drawn[0], drawn[0], 0, top))] * count
    parts = rows_by_part(degrees, orders)
    rise = 2 * top // len(parts)
    return [min(-top + place * rise + rng.randint(0, max(rise // 2, 1)), COEFFICIENT_LIMIT)
            for place, rows in enumerate(parts) for _ in range(rows)]


def marks(rng, space, coefs):
    """Numbers of the curve that a width may be beside: an ordinate, the least and the greatest value. Most
    are above the value at the span's start, where the search would end at once."""
    try:
        columns = by_column(space, build_rows(space))
    except Refusal:
        return [0]
    places = [*around_breakpoints(space.breaks), *(one_position(rng, space.breaks) for _ in range(READ_POSITIONS))]
    values = part_values(space, columns, coefs, places)
    segment = rng.randrange(len(space.degrees))
    found = [rng.choice(segment_ordinates(space, columns, coefs, segment)), min(values), max(values),
             rng.choice(values)]
    higher = [mark for mark in found if mark > values[0]]
    return higher if higher and rng.random() < 0.8 else found


def a_width(rng, space, coefs):
    style = pick(rng, [(75, "mark"), (10, "coefficient"), (7, "value end"), (8, "width end")])
    if style == "mark":
        mark = rng.choice(marks(rng, space, coefs))
        return rng.choice((mark // UNIT, -(-mark // UNIT))) + rng.choice((-1, 0, 0, 0, 1))
    if style == "coefficient":
        return rng.choice(coefs)
    return rng.choice(VALUE_ENDS if style == "value end" else WIDTH_ENDS)


def legal_reach(rng):
    breaks, degrees, orders = space_of(rng)
    curves = [shaped(rng, degrees, orders), shaped(rng, degrees, orders)]
    coefs = side_by_side(zip(*curves)) if rng.random() < 0.9 else coef_list(rng, row_count(degrees, orders))
    part = rng.randrange(len(WOOD_PARTS))
    width = a_width(rng, Space(breaks, degrees, orders), part_coefs(coefs)[part])
    return ReachCall(WOOD_PARTS[part], breaks, degrees, orders, coefs, width, weight_buffer(rng), weight_buffer(rng))


def any_reach(rng):
    """The lists of a curve call of any kind, refused ones among them, and any width."""
    call = random_call(rng, "curve")
    short = [max(CELLS + rng.choice((0, 0, 0, 0, 0, 0, 1, -1)), 0) for _ in range(2)]
    width = rng.choice((*WIDTH_ENDS, *VALUE_ENDS, rng.randint(-2 ** 31, 2 ** 31 - 1), rng.randint(-3_000, 3_000)))
    return ReachCall(rng.choice(WOOD_PARTS), call.breaks, call.degrees, call.orders, call.coefs, width,
                     *(Lent(length, rng.randrange(1000)) for length in short))


def random_reach(rng):
    return any_reach(rng) if rng.random() < 0.25 else legal_reach(rng)
