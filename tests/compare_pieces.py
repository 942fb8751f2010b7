"""Compares the engine's piece calls with the rational program, floats bit for bit.

usage: compare_pieces.py DRIVER [--count N] [--seed S] [--case LINE] [--valgrind]

A call line is `earlywood_piece` or `latewood_piece` with the words of
tests/space_calls.py and `segment=`. The driver's line must equal the model's:
number, place, degree and the unused word, the bits of the four ordinates and of
both ends, and every lent cell. The first difference is shown with its call line,
which --case runs again.
"""

import sys

from comparing import kind_of
from space_calls import compare_space_calls

from pieces import MOST_DRAWN_DEGREE, bits, piece_outcome
from protocol import listed, weight_words
from random_pieces import PieceCall, random_piece

GATE_COUNT = 3_000
REACHABLE = [kind_of(number) for number in (0, 1, 2, 3, 4, 5, 6, 8, 15, 17)]


def result(call):
    """The result line of a right engine, and its number."""
    outcome = piece_outcome(call.part, (call.breaks, call.degrees, call.orders), call.coefs, call.segment,
                            call.num.length, call.den.length)
    reply, piece = outcome.curve.reply, outcome.piece
    ordinates = piece.ordinates if piece else []
    padded = [*ordinates, *[0] * (MOST_DRAWN_DEGREE + 1 - len(ordinates))]
    ends = (piece.start, piece.end) if piece else (0, 0)
    words = ["piece=" + listed((reply.number, reply.place, max(len(ordinates) - 1, 0), 0)),
             "ordinates=" + listed(map(bits, padded)), "ends=" + listed(map(bits, ends)), *weight_words(outcome.curve)]
    return " ".join(words), reply.number, None


if __name__ == "__main__":
    sys.exit(compare_space_calls("piece", "segment", PieceCall, random_piece, result, GATE_COUNT, REACHABLE))
