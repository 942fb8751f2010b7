"""Compares the engine's calls for Tucson files with the rational program.

usage: compare_tucson.py DRIVER [--count N] [--seed S] [--case LINE] [--valgrind]

N texts are read and N lists of series written, good ones and damaged in each
way that the numbers name (tests/reference/random_tucson.py). A call line is
`read` with the text's bytes as a list and four lent buffers, or `write` with
four lists and one; a lent buffer is its length and fill, as in
tests/reference/protocol.py. The driver's line must equal the model's: the reply
and every lent cell that changed. The first difference is shown with its call
line, which --case runs again.
"""

import sys
from itertools import count

from comparing import arguments, compare_calls, kind_of

from protocol import Lent, changed_word, line_of, listed, read_line
from random_spaces import pick
from random_tucson import lists_of, random_lists, random_text
from space import Refusal
from tucson import read_tucson, series_of_lists, tucson_read, tucson_write, write_tucson

GATE_COUNT = 5_000
LISTS = ("names", "years", "counts", "widths")
BITS = {"names": 8, "years": 32, "counts": 32, "widths": 32, "text": 8}
UNSIGNED = ("names", "counts", "text")
REACHABLE = {f"{call} {kind_of(number)}" for call, numbers in
             (("read", (0, 1, 11, 12, 13)), ("write", (0, 1, 2, 11))) for number in numbers}


def contents(name, lent):
    """What a lent buffer holds before the call."""
    if name in UNSIGNED:
        held = [(lent.fill + cell) % 2 ** BITS[name] for cell in range(lent.length)]
        return bytes(held) if BITS[name] == 8 else held
    return lent.contents(BITS[name])


class TucsonCall:
    """A call with its lists and its lent buffers, by name and in order."""

    def __init__(self, kind, lists, buffers):
        self.kind, self.lists, self.buffers = kind, lists, buffers

    def line(self):
        return line_of(self.kind, self.lists, self.buffers)

    def expected(self):
        """The result line of a right engine, and its kind."""
        call = tucson_read if self.kind == "read" else tucson_write
        before = [contents(name, lent) for name, lent in self.buffers.items()]
        reply, *after = call(*self.lists.values(), *before)
        words = [f"reply={listed(reply)}", *map(changed_word, self.buffers, before, after)]
        return " ".join(words), f"{self.kind} {kind_of(reply.number)}"


def read_case(line):
    """The call of a line, so that a printed case can be run again."""
    kind, lists, buffers = read_line(line)
    return TucsonCall(kind, {name: bytes(cells) if BITS[name] == 8 else cells for name, cells in lists.items()}, buffers)


def lent_for(rng, needed):
    """Most buffers have room; some lack a cell or all."""
    spare = pick(rng, [(60, 0), (30, rng.randrange(9)), (3, -1), (1, -needed)])
    return Lent(max(needed + spare, 0), rng.randrange(1000))


def random_read(rng):
    text = random_text(rng)
    try:
        needed = [len(cells) for cells in lists_of(read_tucson(text))]
    except Refusal:
        needed = [len(text) // size for size in (2, 19, 19, 6)]
    return TucsonCall("read", {"text": text}, {name: lent_for(rng, size) for name, size in zip(LISTS, needed)})


def random_write(rng):
    lists = random_lists(rng)
    try:
        needed = len(write_tucson(series_of_lists(*lists)))
    except Refusal:
        needed = rng.randrange(200)
    return TucsonCall("write", dict(zip(LISTS, lists)), {"text": lent_for(rng, needed)})


def both_in_turn():
    """A text, a list, a text, .. with as many of each."""
    turns = count()
    return lambda rng: (random_read, random_write)[next(turns) % 2](rng)


def main():
    chosen = arguments("the calls for Tucson files", GATE_COUNT)
    chosen.count *= 2
    return compare_calls("compare_tucson", chosen, both_in_turn(), read_case, REACHABLE)


if __name__ == "__main__":
    sys.exit(main())
