"""Tries which numbers each call can give, with their places, on random calls."""

from collections import Counter

from generate import random_call
from indices import BAD_RING, INDICES_PLACE, WOOD_PARTS, indices_outcome
from limits import CELLS, LARGEST_PLACE, PARTS
from pieces import NOT_DRAWN, piece_outcome
from random_ordinates import random_ordinates
from random_pieces import random_piece
from random_reach import random_reach
from reach import NEVER_REACHED, reach_outcome
from recovery import BAD_ORDINATE, NO_COEFFICIENTS, TOO_LARGE_TO_UNDO
from space import (BAD_BREAKPOINT, BAD_COEFFICIENT, BAD_DEGREE, BAD_LENGTHS, BAD_ORDER, BAD_POSITION, SHORT_BUFFER,
                   TOO_LARGE, TOO_MANY_SEGMENTS)

SHARE = 4                    # one call of the costlier kinds for so many spaces


def of_space(degrees):
    """The places that the numbers of a space can have, given its degrees."""
    segments = len(degrees)
    return {BAD_LENGTHS: {0}, BAD_BREAKPOINT: range(segments + 1), BAD_DEGREE: range(segments),
            BAD_ORDER: range(segments - 1), TOO_MANY_SEGMENTS: range(segments), TOO_LARGE: range(segments - 1)}


def of_coefficients(coefs):
    return {BAD_COEFFICIENT: {LARGEST_PLACE, *range(len(coefs))}}


def of_build(call):
    return of_space(call.degrees) | {SHORT_BUFFER: {0, 1}}


def of_curve(call):
    return of_space(call.degrees) | of_coefficients(call.coefs) | {
        SHORT_BUFFER: {0, 1, 2}, BAD_LENGTHS: {0, 1}, BAD_POSITION: range(len(call.positions))}


def random_indices(rng):
    """The reply of an index call on the lists of any curve call, and the places that it may have."""
    call = random_call(rng, "curve")
    count = rng.choice((0, 1, 3, 40))
    widths = [rng.choice((0, 1, 99_999, 100_000, -1)) if rng.random() < 0.1 else rng.randint(0, 99_999) for _ in range(count)]
    first = rng.choice((call.breaks or [0])) + rng.choice((0, 0, -1, 5))
    lengths = (CELLS - rng.choice((0, 0, 0, 0, 1)), CELLS, PARTS * count, max(count - rng.choice((0, 0, 0, 1)), 0))
    outcome = indices_outcome(rng.choice(WOOD_PARTS), (call.breaks, call.degrees, call.orders), call.coefs, first, widths, *lengths)
    allowed = of_space(call.degrees) | of_coefficients(call.coefs) | {
        SHORT_BUFFER: {0, 1, 2, INDICES_PLACE}, BAD_LENGTHS: {0, 1}, BAD_POSITION: range(count), BAD_RING: range(count)}
    return outcome.curve.reply, allowed


def random_numbers(rng):
    """(kind, reply, allowed places by number) of one call of each kind."""
    call = random_call(rng)
    yield call.kind, call.outcome().reply, (of_build if call.kind == "build" else of_curve)(call)
    if rng.randrange(SHARE):
        return
    yield "indices", *random_indices(rng)
    call = random_reach(rng)
    lists = (call.breaks, call.degrees, call.orders)
    alone = of_space(call.degrees) | of_coefficients(call.coefs) | {SHORT_BUFFER: {0, 1}}
    reply = reach_outcome(call.part, lists, call.coefs, call.width, call.num.length, call.den.length).curve.reply
    yield "reach", reply, alone | {NEVER_REACHED: {0}}
    call = random_piece(rng)
    lists = (call.breaks, call.degrees, call.orders)
    alone = of_space(call.degrees) | of_coefficients(call.coefs) | {SHORT_BUFFER: {0, 1}}
    reply = piece_outcome(call.part, lists, call.coefs, call.segment, call.num.length, call.den.length).curve.reply
    yield "piece", reply, alone | {NOT_DRAWN: {min(call.segment, LARGEST_PLACE)}}
    call = random_ordinates(rng)
    joins = range(len(call.space().degrees) - 1)
    yield "coefficients", call.recovery().outcome.reply, of_space(call.space().degrees) | {
        SHORT_BUFFER: {0, 1, 3, 4}, BAD_ORDINATE: {LARGEST_PLACE, *range(len(call.lists["ordinates"]))},
        NO_COEFFICIENTS: joins, TOO_LARGE_TO_UNDO: joins}


def check_numbers(tally, rng, count):
    """Every refusal is one that the statement of its call lists; every number of the list comes up."""
    seen = Counter()
    for _ in range(count):
        for kind, reply, allowed in random_numbers(rng):
            seen[kind, reply.number] += 1
            tally.check(reply.number == 0 or reply.place in allowed.get(reply.number, ()), "numbers", kind, reply)
    for kind, number in (("build", TOO_LARGE), ("curve", BAD_POSITION), ("indices", BAD_RING), ("reach", NEVER_REACHED),
                         ("piece", NOT_DRAWN), ("coefficients", NO_COEFFICIENTS)):
        tally.check(seen[kind, number] > 0, "this number came up", kind, number)
