"""Checks the reach model: stated cases, and every position of random short spans read by the curve call."""

from random import Random

from calls import curve_outcome
from limits import CELLS, DISCONTINUITY, PARTS, UNIT
from random_reach import random_reach
from reach import NEVER_REACHED, WOOD_PARTS, reach_outcome
from reading import side_by_side

LONGEST = 16                 # rings of a span that is read position by position
W9_LISTS = ([0, 1, 2], [1, 1], [-1])


def stated(width):
    """W9's space with the coefficients 0, 10, 20, 30 of both parts."""
    coefs = side_by_side(zip([0, 10, 20, 30], [0, 10, 20, 30]))
    return reach_outcome("earlywood", W9_LISTS, coefs, width, CELLS, CELLS)


def read_all(call):
    """The least position that reaches the width, by reading them all."""
    positions = range(UNIT * call.breaks[0], UNIT * call.breaks[-1] + 1)
    lists = (call.breaks, call.degrees, call.orders)
    for start in range(0, len(positions), 4_096):
        some = list(positions[start:start + 4_096])
        read = curve_outcome(*lists, call.coefs, some, CELLS, CELLS, PARTS * len(some))
        for position, pair in zip(some, read.values):
            if pair[WOOD_PARTS.index(call.part)] >= UNIT * call.width:
                return position
    return None


def check_reach(tally, seed, count):
    for width, position in ((0, 0), (10, 256), (11, 257), (20, 257), (30, 512), (-2 ** 31, 0)):
        tally.check(stated(width).position == position, "reach in W9", width)
    tally.check(stated(31).curve.reply == (0, NEVER_REACHED, 0), "never reached in W9")
    rng, past_discontinuity = Random(seed), 0
    for _ in range(count):
        call = random_reach(rng)
        lists = (call.breaks, call.degrees, call.orders)
        outcome = reach_outcome(call.part, lists, call.coefs, call.width, call.num.length, call.den.length)
        if outcome.curve.reply.number not in (0, NEVER_REACHED) or call.breaks[-1] - call.breaks[0] > LONGEST:
            continue
        found = read_all(call)
        expected = (NEVER_REACHED, 0) if found is None else (0, found)
        tally.check((outcome.curve.reply.number, outcome.position) == expected, "reach", call, outcome.position)
        scars = [UNIT * start for start, order in zip(call.breaks[1:], call.orders) if order == DISCONTINUITY]
        past_discontinuity += found is not None and any(start < found for start in scars)
    tally.check(past_discontinuity > count // 50, "a width first met past a discontinuity", past_discontinuity)
