"""Compares the engine's call for laboratories' files with the rational program.

usage: compare_clean.py DRIVER [--count N] [--seed S] [--case LINE] [--valgrind]

N files are cleaned, good ones, dialects and damaged ones
(tests/reference/random_files.py), into buffers that fit, are too long, too short by
a cell, or empty. A call line is `clean` with the file's bytes as a list, header
and unit, and three lent buffers, as in tests/reference/protocol.py. The driver's line
must equal the model's: the counts, number and place, and every lent cell that
changed. The first difference is shown with its call line, which --case runs again.
"""

import sys

from comparing import arguments, compare_calls, kind_of

from cleaning import clean, cleaned
from protocol import Lent, changed_word, line_of, read_line
from random_files import random_file
from random_spaces import pick
from space import Refusal

GATE_COUNT = 20_000
BITS = {"out": 8, "lines": 64, "notes": 64}
NOTES = range(1, 15)
REACHABLE = {*(kind_of(number) for number in (0, 1, 11, 12, 13, *range(21, 27))),
             *(f"note {note:2}" for note in NOTES), *(f"number 1, place {place}" for place in range(3)),
             "number 24, place 0", "number 26, place 0"}


class CleanCall:
    """A call with a file, its two options and its lent buffers, by name and in order."""

    def __init__(self, file, header, unit, buffers):
        self.file, self.header, self.unit, self.buffers = file, header, unit, buffers

    def line(self):
        return line_of("clean", {"text": self.file, "header": [self.header], "unit": [self.unit]}, self.buffers)

    def before(self):
        """What the buffers hold before the call; all their cells are unsigned."""
        held = {name: [(lent.fill + cell) % 2 ** BITS[name] for cell in range(lent.length)]
                for name, lent in self.buffers.items()}
        return [bytes(held["out"]), held["lines"], held["notes"]]

    def expected(self):
        """The result line of a right engine, its kind, and its notes."""
        before = self.before()
        reply, *after = clean(self.file, self.header, self.unit, *before)
        words = [f"{name}={number}" for name, number in reply._asdict().items()]
        words += map(changed_word, self.buffers, before, after)
        return " ".join(words), kind_of(reply.number), *marks(reply, after[-1])


def marks(reply, notes):
    """What is counted of a call beside its number."""
    if reply.number == 0:
        return [f"note {note:2}" for note in sorted({*notes[:2 * reply.notes:2]})]
    return [f"number {reply.number}, place {reply.place}"] if reply.number == 1 or reply.place == 0 else []


def read_case(line):
    """The call of a line, so that a printed case can be run again."""
    _, lists, buffers = read_line(line)
    (header,), (unit,) = lists["header"], lists["unit"]
    return CleanCall(bytes(lists["text"]), header, unit, buffers)


def lent_for(rng, needed):
    """Most buffers have room; some lack a cell or all."""
    spare = pick(rng, [(60, 0), (30, rng.randrange(9)), (3, -1), (1, -needed)])
    return Lent(max(needed + spare, 0), rng.randrange(1000))


def random_clean(rng):
    file, header, unit = random_file(rng)
    try:
        text, numbers, notes = cleaned(file, header, unit)
        needed = (len(text), len(numbers), 2 * len(notes))
    except Refusal:
        needed = (len(file), len(file) // 19, len(file) // 19)
    return CleanCall(file, header, unit, dict(zip(BITS, (lent_for(rng, size) for size in needed))))


def main():
    chosen = arguments("the call for laboratories' files", GATE_COUNT)
    return compare_calls("compare_clean", chosen, random_clean, read_case, REACHABLE)


if __name__ == "__main__":
    sys.exit(main())
