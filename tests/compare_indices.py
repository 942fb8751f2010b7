"""Compares the engine's index calls with the rational program on random rings.

usage: compare_indices.py DRIVER [--count N] [--seed S] [--case LINE] [--valgrind]

A call line is `earlywood_indices` or `latewood_indices` with the words of a
curve line (tests/reference/protocol.py), `first=` and `widths=` in the place of
`at=`, and `indices=` as a lent buffer. The driver's line must equal the model's:
the reply and every lent cell. The first difference is shown with its call line,
which --case runs again.
"""

import sys

from comparing import arguments, compare_calls, kind_of

from generate import random_call
from indices import WOOD_PARTS, indices_outcome
from limits import CELLS, MOST_POSITIONS, MOST_THOUSANDTHS, PARTS
from protocol import (SPACE_WORDS, WEIGHT_BITS, Lent, changed_word, line_of, listed, read_line, value_word,
                      weight_words)
from random_spaces import pick

GATE_COUNT = 5_000
REACHABLE = set(map(kind_of, (0, 1, 2, 3, 4, 5, 6, 7, 8, 14, 15)))
BUFFERS = ("num", "den", "values", "indices")
LISTS = (*SPACE_WORDS, "coefs")


class Rings:
    """An index call: a wood part, lists, the first ring, widths and lent buffers."""

    def __init__(self, part, lists, first, widths, buffers):
        self.part, self.lists, self.first, self.widths, self.buffers = part, lists, first, widths, buffers

    def line(self):
        lists = {name: self.lists[name] for name in LISTS} | {"first": [self.first], "widths": self.widths}
        return line_of(f"{self.part}_indices", lists, self.buffers)

    def expected(self):
        """The result line of a right engine, and its kind."""
        spaces = [self.lists[name] for name in SPACE_WORDS]
        outcome = indices_outcome(self.part, spaces, self.lists["coefs"], self.first, self.widths,
                                  *(lent.length for lent in self.buffers.values()))
        before = self.buffers["indices"].contents(WEIGHT_BITS)
        words = ["reply=" + listed(outcome.curve.reply), *weight_words(outcome.curve),
                 value_word(outcome.curve.values, self.buffers["values"]),
                 changed_word("indices", before, outcome.indices or [])]
        return " ".join(words), kind_of(outcome.curve.reply.number)


def read_case(line):
    """The call of a line, so that a printed case can be run again."""
    name, lists, buffers = read_line(line)
    first, = lists["first"]
    return Rings(name.partition("_")[0], lists, first, lists["widths"], buffers)


def a_width(rng):
    return pick(rng, [(70, rng.randint(1, 4000)), (15, 0), (10, rng.randint(0, MOST_THOUSANDTHS)),
                      (3, MOST_THOUSANDTHS), (1, rng.choice((-1, MOST_THOUSANDTHS + 1))),
                      (1, rng.choice((-2 ** 31, 2 ** 31 - 1)))])


def ring_range(rng, breaks):
    """The first ring and how many there are: within the span, past it, or at the ends of 32 bits."""
    start, end = (breaks[0], breaks[-1]) if len(breaks) > 1 and breaks[0] < breaks[-1] <= 10_000 else (0, 9)
    first = rng.randint(start, end) if rng.random() < 0.9 else rng.choice(
        (start - 1, end + 1, -2 ** 31, 2 ** 31 - 1, 2 ** 31 - 3, 8_388_607, 8_388_608, -8_388_609))
    most = max(end - first + 1, 1)
    count = pick(rng, [(160, rng.randint(0, min(most, 12))), (20, min(most, 60)), (10, min(most, 60) + 1),
                       (1, MOST_POSITIONS), (1, MOST_POSITIONS + 1)])
    return first, count


def positive(rng, coefs):
    """Most curves are of widths, above zero; some are as they come."""
    return [abs(coef) + 1 if abs(coef) < 1_000_000 else coef for coef in coefs] if rng.random() < 0.7 else coefs


def buffer(rng, needed):
    return Lent(max(needed + rng.choice((0, 0, 0, 0, 1, 5, -1)), 0), rng.randrange(1000))


def random_rings(rng):
    call = random_call(rng, "curve")
    first, count = ring_range(rng, call.breaks)
    widths = [a_width(rng) if rng.random() < 0.5 else rng.randint(1, 3000) for _ in range(count)]
    if rng.random() < 0.6:
        widths = [min(max(width, 0), MOST_THOUSANDTHS) for width in widths]
    spare = rng.random() < 0.85
    needed = (CELLS, CELLS, PARTS * count, count)
    buffers = {name: Lent(size + rng.randrange(3), rng.randrange(1000)) if spare else buffer(rng, size)
               for name, size in zip(BUFFERS, needed)}
    lists = {"breaks": call.breaks, "degrees": call.degrees, "orders": call.orders,
             "coefs": positive(rng, call.coefs)}
    return Rings(rng.choice(WOOD_PARTS), lists, first, widths, buffers)


def main():
    chosen = arguments("the index calls", GATE_COUNT)
    return compare_calls("compare_indices", chosen, random_rings, read_case, REACHABLE)


if __name__ == "__main__":
    sys.exit(main())
