"""Random cases from a seed: calls of build and curve, and sheets.

The mix of calls: 40 in 100 legal lists, 14 of order 2 near or over the size
limit (number 8), 28 damaged once and 10 twice (numbers 1 to 7 and 15 evenly), 5 with
extreme 32-bit entries, 3 with lists of any length and content. A third are
build calls. The mix of sheets: 35 in 100 legal, 20 with lists as in the mix of
calls, 45 with damaged text (number 10). The same seed gives the same cases.

Run by itself it prints call lines: generate.py SEED COUNT.
"""

import sys
from random import Random

from protocol import Call, call_line
from random_damage import damaged, extreme_entries, huge_list, wild_lists
from random_sheets import call_sheet, damaged_text
from random_spaces import (coef_list, pick, position_list, row_count, sized_space_lists,
                           space_lists, value_buffer, weight_buffer)

BUILD_SHARE = 1 / 3


def call_on(rng, lists, kind):
    """A legal call on the lists of a space."""
    breaks, degrees, orders = lists
    buffers = (weight_buffer(rng), weight_buffer(rng))
    if kind == "build":
        return Call(kind, breaks, degrees, orders, *buffers)
    positions = position_list(rng, breaks)
    return Call(kind, breaks, degrees, orders, *buffers,
                coef_list(rng, row_count(degrees, orders)), positions,
                value_buffer(rng, positions))


def any_kind(rng):
    return "build" if rng.random() < BUILD_SHARE else "curve"


def random_call(rng, kind=None):
    kind = kind or any_kind(rng)
    style = pick(rng, [(400, "legal"), (140, "size"), (280, "damaged"), (100, "damaged twice"),
                       (50, "extreme"), (29, "wild"), (1, "huge")])
    lists = sized_space_lists(rng) if style == "size" else space_lists(rng)
    call = call_on(rng, lists, kind)
    if style == "damaged":
        return damaged(rng, call, 1)
    if style == "damaged twice":
        return damaged(rng, call, 2)
    change = {"extreme": extreme_entries, "wild": wild_lists, "huge": huge_list}.get(style)
    return change(rng, call) if change else call


def random_sheet(rng):
    style = pick(rng, [(35, "legal"), (20, "lists"), (45, "text")])
    if style == "lists":
        return call_sheet(random_call(rng, "curve"))
    lists = pick(rng, [(3, space_lists), (1, sized_space_lists)])(rng)
    call = call_on(rng, lists, "curve")
    return call_sheet(call) if style == "legal" else damaged_text(rng, call)


def calls(seed, count):
    rng = Random(seed)
    return (random_call(rng) for _ in range(count))


def sheets(seed, count):
    rng = Random(seed)
    return (random_sheet(rng) for _ in range(count))


if __name__ == "__main__":
    for case in calls(int(sys.argv[1]), int(sys.argv[2])):
        print(call_line(case))
