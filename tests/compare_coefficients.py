"""Compares the engine's calls for coefficients with the rational program.

usage: compare_coefficients.py DRIVER [--count N] [--seed S] [--case LINE] [--valgrind]

A call line is `coefficients` with the lists of a space, `ordinates=` and the
lent buffers `num=`, `den=`, `coef_num=` and `coef_den=`. The driver's line must
equal the model's: the reply and every lent cell. What § 12 names
must come up: ordinates made from coefficients and those with one off by one,
counts off by one, beams, each number at the first, a middle and the last join,
each kind of fraction that can be too large, answer buffers too short, just long
enough and longer. The first difference is shown with its call line, which
--case runs again.
"""

import sys

from comparing import arguments, compare_calls, kind_of

from limits import CELLS, DISCONTINUITY, LARGEST_PLACE, ORDINATE_LIMIT
from protocol import WEIGHT_BITS, changed_word, listed, weight_words
from random_ordinates import MADE, MOVED, random_ordinates, read_ordinates
from recovery import (BAD_ORDINATE, DENOMINATORS_PLACE, LIMITED, NO_COEFFICIENTS, NUMERATORS_PLACE,
                      TOO_LARGE_TO_UNDO)
from space import SHORT_BUFFER, TOO_LARGE

GATE_COUNT = 5_000
NUMBERS = (0, 1, 2, 3, 4, 5, TOO_LARGE, 15, BAD_ORDINATE, NO_COEFFICIENTS, TOO_LARGE_TO_UNDO)
BY_JOINS = (TOO_LARGE, NO_COEFFICIENTS, TOO_LARGE_TO_UNDO)
ANSWER_PLACES = (NUMERATORS_PLACE, DENOMINATORS_PLACE)

# What must come up beside the numbers.
FIRST, MIDDLE, LAST, LATER_PART = "the first join", "a middle join", "the last join", "a later part"
WHERE = {f"{kind_of(number)} at {where}" for number in BY_JOINS for where in (FIRST, MIDDLE, LAST, LATER_PART)}
SHORT = {f"{kind_of(SHORT_BUFFER)}, place {place}" for place in (0, 1, *ANSWER_PLACES)}
BOTH_SHORT, SHORT_FIRST = "place 3 with 4 behind it", "place 3 or 4 with another number behind it"
TOO_FEW, TOO_MANY, RANGE = "one ordinate too few", "one ordinate too many", "an ordinate out of range"
TOO_LARGE_KINDS = {f"{kind_of(TOO_LARGE_TO_UNDO)} by a {kind}" for kind in LIMITED}
OFF_BY_ONE, FROM_COEFFICIENTS = "number 19 by one ordinate off by one", "answers to ordinates made from coefficients"
FRACTIONS, BEAMS, AT_LIMIT = "answers with fractions", "answers on a beam", "ordinates at the end of the range"
JUST_ENOUGH, SPARE = "written answer buffers just long enough", "written answer buffers with cells behind"
REACHABLE = {*map(kind_of, NUMBERS), *WHERE, *SHORT, BOTH_SHORT, SHORT_FIRST, TOO_FEW, TOO_MANY, RANGE, *TOO_LARGE_KINDS,
             OFF_BY_ONE, FROM_COEFFICIENTS, FRACTIONS, BEAMS, AT_LIMIT, JUST_ENOUGH, SPARE}


def join_marks(number, place, space):
    """Where a refusal's join is among those with conditions, of which there are several."""
    joins = [join for join, order in enumerate(space.orders) if order != DISCONTINUITY]
    if joins[0] < joins[-1]:
        where = {joins[0]: FIRST, joins[-1]: LAST}.get(place, MIDDLE)
        yield f"{kind_of(number)} at {where}"
    if DISCONTINUITY in space.orders[:place]:
        yield f"{kind_of(number)} at {LATER_PART}"


def short_marks(call, place):
    """A buffer that is too short: which one, and what the call would end with otherwise."""
    ordinates = len(call.lists["ordinates"])
    yield f"{kind_of(SHORT_BUFFER)}, place {place}"
    if place == NUMERATORS_PLACE and call.buffers["coef_den"].length < ordinates:
        yield BOTH_SHORT
    if place in ANSWER_PLACES and call.recovery((CELLS, CELLS, ordinates, ordinates)).outcome.reply.number:
        yield SHORT_FIRST


def ordinate_marks(call, place):
    """Number 18: what is wrong with the ordinates."""
    if place != LARGEST_PLACE:
        yield RANGE
    over = len(call.lists["ordinates"]) - call.space().column_count()
    yield from {-1: [TOO_FEW], 1: [TOO_MANY]}.get(over, [])


def answer_marks(call, answers):
    if call.drawn == MADE:
        yield FROM_COEFFICIENTS
    if any(answer.denominator != 1 for answer in answers):
        yield FRACTIONS
    if DISCONTINUITY in call.lists["orders"]:
        yield BEAMS


def buffer_marks(call):
    """The answer buffers of a call that writes to them."""
    ordinates = call.lists["ordinates"]
    for name in ("coef_num", "coef_den"):
        yield JUST_ENOUGH if call.buffers[name].length == len(ordinates) else SPARE
    if max(map(abs, ordinates)) == ORDINATE_LIMIT:
        yield AT_LIMIT


def marks(call, recovery):
    """All that this call shows of what must come up."""
    _, number, place = recovery.outcome.reply
    if number == SHORT_BUFFER:
        yield from short_marks(call, place)
    if number == BAD_ORDINATE:
        yield from ordinate_marks(call, place)
    if number in BY_JOINS:
        yield from join_marks(number, place, call.space())
    if number == NO_COEFFICIENTS and call.drawn == MOVED:
        yield OFF_BY_ONE
    if number == TOO_LARGE_TO_UNDO:
        yield f"{kind_of(number)} by a {recovery.too_large}"
    if not number:
        yield from answer_marks(call, recovery.answers)
    if recovery.answers is not None:
        yield from buffer_marks(call)


class Asked:
    """A call for coefficients, with the line of a right engine."""

    def __init__(self, call):
        self.call = call

    def line(self):
        return self.call.line()

    def expected(self):
        recovery = self.call.recovery()
        outcome, answers = recovery.outcome, recovery.answers or []
        before = {name: self.call.buffers[name].contents(WEIGHT_BITS) for name in ("coef_num", "coef_den")}
        words = ["reply=" + listed(outcome.reply), *weight_words(outcome),
                 changed_word("coef_num", before["coef_num"], [answer.numerator for answer in answers]),
                 changed_word("coef_den", before["coef_den"], [answer.denominator for answer in answers])]
        return " ".join(words), kind_of(outcome.reply.number), *marks(self.call, recovery)


def main():
    chosen = arguments("the calls for coefficients", GATE_COUNT)
    return compare_calls("compare_coefficients", chosen, lambda rng: Asked(random_ordinates(rng)),
                         lambda line: Asked(read_ordinates(line)), REACHABLE)


if __name__ == "__main__":
    sys.exit(main())
