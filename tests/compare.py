"""Compares the engine with the rational program on random calls.

usage: compare.py DRIVER [--count N] [--seed S] [--case LINE] [--valgrind]

The driver executable runs each call; its line must equal the model's byte for
byte, so every answer and every lent cell is compared. Every value of every
answered curve call is held against the exact curve of its part as demand 3 asks.
Values on joins of each order and beside them on both sides must come up, and so
must pairs of which one is low, an odd count of coefficients, a latewood
coefficient out of range and a values buffer one cell short. The first
difference is shown with its call line, which --case runs again. With
--valgrind the driver runs under it, each list and buffer in a block of its own
length, so that any read or write outside the lent memory is a failure.
"""

import itertools
import sys
import time
from collections import Counter

from comparing import ENOUGH, arguments, bad_end, command_of, driven, line_difference, status_of

from cases import fixed_calls
from generate import calls
from limits import DISCONTINUITY, LARGEST_PLACE, MOST_ORDER, PARTS, UNIT
from protocol import call_line, printed_values, read_call, result_line
from space import BAD_COEFFICIENT, SHORT_BUFFER
from walzhik_reference import Space, by_column, first_pair_fault, pair_tests

GATE_COUNT = 20_000
BATCH = 1_000             # calls given to one run of the driver
REACHABLE = range(9)      # numbers that a call on random lists must show
FAR = range(2 ** 8, 2 ** 32 - 1)  # places that need more than a byte; one must come up too
SIDES = {-1: "before", 0: "on", 1: "after"}
JOINS = [(order, side) for order in range(DISCONTINUITY, MOST_ORDER + 1) for side in SIDES]
PAIRS = ("pairs with one low value", "odd counts of coefficients",
         "latewood coefficients out of range", "value buffers one cell short")
SUMS = ("values", "far places") + PAIRS   # what is counted beside the calls


class Difference(Exception):
    """A call and what is wrong with it."""


def check_line(call, outcome, line):
    expected = result_line(call, outcome)
    if line != expected:
        raise Difference(line_difference(call_line(call), expected, line))


def check_closeness(call, outcome, line):
    """Demand 3 on every printed value; the number of values tested."""
    if not outcome.values:
        return 0
    space = Space(call.breaks, call.degrees, call.orders)
    tests = pair_tests(space, by_column(space, outcome.rows), call.coefs)
    fault = first_pair_fault(tests, call.positions, printed_values(call, line))
    if fault:
        raise Difference(f"call: {call_line(call)}\n  {fault[0]} value {fault[1]} is {fault[2]}")
    return PARTS * len(outcome.values)


def count_joins(call, outcome, joins):
    """How many values were read on a join and one beside it, by its order."""
    if not outcome.values:
        return
    near = {UNIT * point + side: (order, side)
            for point, order in zip(call.breaks[1:], call.orders) for side in SIDES}
    joins.update(near[position] for position in call.positions if position in near)


def count_pairs(call, outcome, seen):
    """What only lists of pairs can show, by the names above."""
    one_low, odd_count, latewood, one_short = PAIRS
    _, number, place = outcome.reply
    seen[one_low] += sum(min(pair) <= 0 < max(pair) for pair in outcome.values or [])
    if number == BAD_COEFFICIENT:
        seen[odd_count] += place == LARGEST_PLACE and len(call.coefs) % PARTS == 1
        seen[latewood] += place != LARGEST_PLACE and place % PARTS == 1
    if number == SHORT_BUFFER:
        seen[one_short] += place == 2 and call.values.length == PARTS * len(call.positions) - 1


def compare_batch(command, batch, seen, joins):
    asked = [call_line(call) for call in batch]
    lines, code, errors = driven(command, asked)
    for call, line in zip(batch, lines):
        outcome = call.outcome()
        check_line(call, outcome, line)
        seen["values"] += check_closeness(call, outcome, line)
        seen["far places"] += outcome.reply.place in FAR
        count_joins(call, outcome, joins)
        count_pairs(call, outcome, seen)
        seen[call.kind, outcome.reply.number] += 1
    if code != 0 or len(lines) != len(batch):
        raise Difference(bad_end(command, asked, len(lines), code, errors))


def compare_all(command, every_call, seen, joins):
    batches = iter(every_call)
    while batch := list(itertools.islice(batches, BATCH)):
        compare_batch(command, batch, seen, joins)


def print_joins(joins):
    for order in sorted({order for order, _ in joins}):
        counts = ", ".join(f"{joins[order, side]} {name}" for side, name in SIDES.items())
        print(f"  joins of order {order}: {counts}")


def print_summary(seen, seconds):
    for number in sorted({key[1] for key in seen if key not in SUMS}):
        name = f"number {number}" if number else "answers"
        print(f"  {name:9} build {seen['build', number]:6}  curve {seen['curve', number]:6}")
    total = compared(seen)
    print(f"  {seen['far places']} places of more than a byte")
    for name in PAIRS:
        print(f"  {seen[name]} {name}")
    print(f"  {seen['values']} values held against the exact curve")
    print(f"  {total / seconds:.0f} calls a second")


def compared(seen):
    return sum(count for key, count in seen.items() if key not in SUMS)


def never_seen(seen, joins):
    """Numbers, far places, and (order, side) of joins, that did not come up."""
    return ([number for number in REACHABLE
             if not seen["build", number] + seen["curve", number]]
            + ["a place of more than a byte"] * (not seen["far places"])
            + [name for name in PAIRS if not seen[name]]
            + [join for join in JOINS if not joins[join]])


def main():
    chosen = arguments("the engine", GATE_COUNT)
    seed = chosen.seed
    seen, joins = Counter(), Counter()
    start = time.monotonic()
    print(f"compare: seed {seed}")
    every_call = ([read_call(chosen.case)] if chosen.case
                  else itertools.chain(fixed_calls(), calls(seed, chosen.count)))
    try:
        compare_all(command_of(chosen), every_call, seen, joins)
    except Difference as difference:
        print(difference)
        print(f"compare: {compared(seen)} passed, 1 failed (seed {seed})")
        return 1
    print_summary(seen, time.monotonic() - start)
    print_joins(joins)
    missing = never_seen(seen, joins) if compared(seen) >= ENOUGH else []
    return status_of("compare", compared(seen), missing)


if __name__ == "__main__":
    sys.exit(main())
