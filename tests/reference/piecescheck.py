"""Checks the model of pieces: stated cases, and random pieces against the exact curve and the values."""

from fractions import Fraction
from math import comb
from random import Random

from closeness import exact_curve, most_weights
from indices import WOOD_PARTS
from limits import CELLS, DISCONTINUITY, LARGEST_PLACE, UNIT
from pieces import NOT_DRAWN, bits, piece_outcome
from random_pieces import random_piece
from reading import part_coefs, part_values, segment_of, side_by_side
from space import Space
from weights import by_column

W9_LISTS = ([0, 1, 2], [1, 1], [-1])
STEPS = 8                    # positions of a segment that are read


def stated(part, segment, early=(0, 10, 20, 30), late=(0, -10, 0, 1)):
    """W9's space, with other coefficients for the latewood."""
    return piece_outcome(part, W9_LISTS, side_by_side(zip(early, late)), segment, CELLS, CELLS)


def polynomial(piece, position):
    """The piece's value at a position, in the units of the values."""
    degree = len(piece.ordinates) - 1
    share = (Fraction(position, UNIT) - piece.start) / (piece.end - piece.start)
    return UNIT * sum(ordinate * comb(degree, t) * share ** t * (1 - share) ** (degree - t)
                      for t, ordinate in enumerate(piece.ordinates))


def check_stated(tally):
    tally.check(stated("earlywood", 1).piece == ([20, 30], 1, 2), "second piece of W9")
    tally.check(stated("latewood", 0).piece == ([0, -10], 0, 1), "first piece of W9's latewood")
    for segment in (2, LARGEST_PLACE):
        tally.check(stated("earlywood", segment).curve.reply == (0, NOT_DRAWN, segment), "no such segment", segment)
    known = {Fraction(0): "0000000000000000", Fraction(1, UNIT): "3f70000000000000", Fraction(-1): "bff0000000000000"}
    tally.check(all(bits(number) == word for number, word in known.items()), "bits")


def check_piece(tally, call, piece, rows):
    space = Space(call.breaks, call.degrees, call.orders)
    columns, coefs = by_column(space, rows), part_coefs(call.coefs)[WOOD_PARTS.index(call.part)]
    first, last = UNIT * piece.start, UNIT * piece.end
    positions = sorted({int(first + (last - first) * step // STEPS) for step in range(STEPS + 1)})
    twice_slack = most_weights(space, columns, call.segment)
    for position in positions:
        if segment_of(space, position) == call.segment:
            apart = polynomial(piece, position) - exact_curve(space, rows, coefs, position)
            tally.check(2 * abs(apart) <= twice_slack, "piece and exact curve", call, position)
    starts_on_scar = call.segment > 0 and call.orders[call.segment - 1] == DISCONTINUITY
    ends = [int(last)] if starts_on_scar else [int(first), int(last)]
    for position, value in zip(ends, part_values(space, columns, coefs, ends)):
        tally.check(polynomial(piece, position) == value, "piece and value at an end", call, position)


def check_pieces(tally, seed, count):
    check_stated(tally)
    rng, degrees = Random(seed), set()
    for _ in range(count):
        call = random_piece(rng)
        outcome = piece_outcome(call.part, (call.breaks, call.degrees, call.orders), call.coefs, call.segment,
                                call.num.length, call.den.length)
        if outcome.piece:
            degrees.add(len(outcome.piece.ordinates) - 1)
            check_piece(tally, call, outcome.piece, outcome.curve.rows)
    tally.check(degrees == {1, 2, 3}, "pieces of each degree", degrees)
