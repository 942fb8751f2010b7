"""Compares the engine's reach calls with the rational program.

usage: compare_reach.py DRIVER [--count N] [--seed S] [--case LINE] [--valgrind]

A call line is `earlywood_reach` or `latewood_reach` with the words of
tests/space_calls.py and `width=`. The driver's line must equal the model's:
position, number and place, and every lent cell. The first difference is shown
with its call line, which --case runs again.
"""

import sys

from comparing import kind_of
from space_calls import compare_space_calls

from limits import DISCONTINUITY, UNIT
from protocol import weight_words
from random_reach import ReachCall, random_reach
from reach import NEVER_REACHED, reach_outcome

GATE_COUNT = 3_000
AT_START, PAST_SCAR = "answers at the start", "answers past a discontinuity"
REACHABLE = [*(kind_of(number) for number in (0, 1, 2, 3, 4, 5, 6, 8, 15, NEVER_REACHED)), AT_START, PAST_SCAR]


def kind(call, outcome):
    """What kind of answer it is, or None for a refusal and for any other answer."""
    if outcome.curve.reply.number:
        return None
    scars = [UNIT * start for start, order in zip(call.breaks[1:], call.orders) if order == DISCONTINUITY]
    if outcome.position == UNIT * call.breaks[0]:
        return AT_START
    return PAST_SCAR if any(start < outcome.position for start in scars) else None


def result(call):
    """The result line of a right engine, its number and the kind of its answer."""
    lists = (call.breaks, call.degrees, call.orders)
    outcome = reach_outcome(call.part, lists, call.coefs, call.width, call.num.length, call.den.length)
    reply = outcome.curve.reply
    words = [f"reach={outcome.position},{reply.number},{reply.place}", *weight_words(outcome.curve)]
    return " ".join(words), reply.number, kind(call, outcome)


if __name__ == "__main__":
    sys.exit(compare_space_calls("reach", "width", ReachCall, random_reach, result, GATE_COUNT, REACHABLE))
