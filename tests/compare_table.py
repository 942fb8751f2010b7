"""Compares the engine's calls for lines of the table with the rational program.

usage: compare_table.py DRIVER [--count N] [--seed S] [--case LINE] [--valgrind]

A call line is `earlywood_ring_lines` or `latewood_ring_lines` with the name's bytes,
the first year, widths, values and indices as lists, and one lent buffer, as in
tests/reference/protocol.py. The driver's line must equal the model's: the reply and
every lent cell that changed. The first difference is shown with its call line,
which --case runs again.
"""

import sys

from comparing import arguments, compare_calls, kind_of

from indices import WOOD_PARTS
from limits import ABSENT_INDEX, MOST_POSITIONS, PARTS
from protocol import Lent, changed_word, line_of, listed, read_line
from random_spaces import pick
from random_table import random_lines
from table import quoted, ring_lines

GATE_COUNT = 5_000
LISTS = ("name", "first", "widths", "values", "indices")
BYTES = 256
LONGEST_LINE = 80
MARKS = ("a name in quotation marks", "a width below zero", "a value below zero", "a year below zero", "an absent ring",
         "4,096 rings", "more rings", "no ring")
REACHABLE = {*map(kind_of, (0, 1, 2, 11)), *MARKS}


class LinesCall:
    """A call with its wood, its lists and its lent buffer."""

    def __init__(self, wood, lists, out):
        self.wood, self.lists, self.out = wood, lists, out

    def line(self):
        return line_of(f"{self.wood}_ring_lines", self.lists, {"out": self.out})

    def given(self):
        """What the model's call takes before the buffer."""
        name, first, *numbers = self.lists.values()
        return self.wood, bytes(name), first[0], *numbers

    def expected(self):
        """The result line of a right engine, its kind, and what it held."""
        before = bytes((self.out.fill + cell) % BYTES for cell in range(self.out.length))
        reply, after = ring_lines(*self.given(), before)
        words = [f"reply={listed(reply)}", changed_word("out", before, after)]
        return " ".join(words), kind_of(reply.number), *([] if reply.number else self.marks())

    def marks(self):
        """Which of the kinds of answer this one is."""
        wood, name, first, widths, values, indices = self.given()
        own = values[WOOD_PARTS.index(wood)::PARTS]
        holds = (quoted(name).startswith(b'"'), min(widths, default=0) < 0, min(own, default=0) < 0, first < 0 and widths,
                 ABSENT_INDEX in indices, len(widths) == MOST_POSITIONS, len(widths) > MOST_POSITIONS, not widths)
        return [mark for mark, held in zip(MARKS, holds) if held]


def read_case(line):
    """The call of a line, so that a printed case can be run again."""
    kind, lists, buffers = read_line(line)
    return LinesCall(kind.partition("_")[0], lists, buffers["out"])


def random_call(rng):
    """Most buffers have room; some lack a cell or all."""
    name, first, *numbers = random_lines(rng)
    call = LinesCall(rng.choice(WOOD_PARTS), dict(zip(LISTS, (name, [first], *numbers))), Lent(0, 0))
    needed = ring_lines(*call.given(), bytes(LONGEST_LINE * (len(numbers[0]) + 1)))[0].count
    spare = pick(rng, [(60, 0), (30, rng.randrange(9)), (5, -1), (1, -needed)])
    call.out = Lent(max(needed + spare, 0), rng.randrange(1000))
    return call


def main():
    chosen = arguments("the calls for lines of the table", GATE_COUNT)
    return compare_calls("compare_table", chosen, random_call, read_case, REACHABLE)


if __name__ == "__main__":
    sys.exit(main())
