"""Pieces for the screen, by § 11.

A piece of a wood part is a segment's step 1 ordinates over 256 and its two
breakpoints, as exact fractions; `bits` gives the one 64-bit float that is such a
number. 17 comes after all numbers of a curve call and leaves the weights written.
"""

from fractions import Fraction
from struct import pack
from typing import NamedTuple

from calls import Outcome, Reply, curve_outcome
from indices import WOOD_PARTS
from limits import UNIT
from reading import part_coefs, segment_ordinates
from space import Space
from weights import by_column

NOT_DRAWN = 17
MOST_DRAWN_DEGREE = 3        # the screen draws lines, quadratics and cubics


class Piece(NamedTuple):
    """Ordinates in thousandths of a millimetre, and the ends in rings."""
    ordinates: list
    start: Fraction
    end: Fraction


class PieceOutcome(NamedTuple):
    """The curve call's outcome with the reply of the whole call, and the piece if there is one."""
    curve: Outcome
    piece: Piece = None


def bits(number):
    """The bits of the 64-bit float that is the number itself; zero is +0.0."""
    as_float = float(number)
    if Fraction(as_float) != number:
        raise ValueError(f"no 64-bit float is {number}")
    return pack(">d", as_float).hex()


def is_drawn(space, segment):
    return segment < len(space.degrees) and space.degrees[segment] <= MOST_DRAWN_DEGREE


def segment_piece(space, columns, coefs, segment):
    """The piece of one wood part's curve, given that part's coefficients."""
    return Piece([Fraction(ordinate, UNIT) for ordinate in segment_ordinates(space, columns, coefs, segment)],
                 Fraction(space.breaks[segment]), Fraction(space.breaks[segment + 1]))


def piece_outcome(part, space_lists, coefs, segment, num_length, den_length):
    """What a piece call leaves behind."""
    read = curve_outcome(*space_lists, coefs, [], num_length, den_length, 0)
    if read.reply.number:
        return PieceOutcome(read)
    space = Space(*space_lists)
    if not is_drawn(space, segment):
        return PieceOutcome(read._replace(reply=Reply(0, NOT_DRAWN, segment)))
    return PieceOutcome(read, segment_piece(space, by_column(space, read.rows),
                                            part_coefs(coefs)[WOOD_PARTS.index(part)], segment))
