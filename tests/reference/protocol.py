"""The text between the comparison and the driver: one call a line, one result a line.

A call line is `build breaks=0,1,3 degrees=2,2 orders=1 num=5184:7 den=5184:9`
or `curve` with `coefs=`, `at=` and `values=` besides; `coefs=` lists the numbers
of the pairs side by side, as the call takes them; a lent buffer is its length
and its fill, and its cell i holds fill + i before the call, wrapped to
the cell's width. driver.c reads such lines and holds the other end.

A result line is `reply=count,number,place num=.. den=.. values=..`. A buffer
is the word same where no cell changed. A changed weight buffer is the list of
cell:content for each cell that differs from the blank table (0, or 1 for a
denominator, in the first 5,184 cells; the old content past them). Any other
changed buffer lists each cell that differs from its old content. Nothing is
left out, so equal lines are equal buffers.

The other calls have lines of the same form: a name, lists, a list of one where
a call takes a single number, and lent buffers.
"""

from typing import NamedTuple

from limits import PARTS
from walzhik_reference import Pair, build_outcome, curve_outcome, side_by_side

SAME = "same"
WEIGHT_BITS = 64
VALUE_BITS = 32
SPACE_WORDS = ("breaks", "degrees", "orders")
POSITIONS_WORD = "at"


class Lent(NamedTuple):
    """A lent buffer before the call."""
    length: int
    fill: int

    def old(self, cell, bits):
        half = 1 << (bits - 1)
        return (self.fill + cell + half) % (2 * half) - half

    def contents(self, bits):
        return [self.old(cell, bits) for cell in range(self.length)]


class Call(NamedTuple):
    kind: str
    breaks: list
    degrees: list
    orders: list
    num: Lent
    den: Lent
    coefs: list = []
    positions: list = []
    values: Lent = Lent(0, 0)

    def outcome(self):
        lists = (self.breaks, self.degrees, self.orders)
        if self.kind == "build":
            return build_outcome(*lists, self.num.length, self.den.length)
        return curve_outcome(*lists, self.coefs, self.positions, self.num.length,
                             self.den.length, self.values.length)


def listed(numbers):
    return ",".join(map(str, numbers))


def line_of(name, lists, buffers):
    """The call line of lists and lent buffers by their words, in order."""
    words = [name, *(f"{word}={listed(entries)}" for word, entries in lists.items()),
             *(f"{word}={lent.length}:{lent.fill}" for word, lent in buffers.items())]
    return " ".join(words)


def read_line(line):
    """The name, the lists and the lent buffers of a call line, so that a printed case can be run again."""
    name, *words = line.split()
    lists, buffers = {}, {}
    for word, _, text in (word.partition("=") for word in words):
        if ":" in text:
            buffers[word] = Lent(*map(int, text.split(":")))
        else:
            lists[word] = [int(entry) for entry in text.split(",") if entry]
    return name, lists, buffers


def call_line(call):
    lists = {word: getattr(call, word) for word in SPACE_WORDS}
    buffers = {"num": call.num, "den": call.den}
    if call.kind == "curve":
        lists |= {"coefs": call.coefs, POSITIONS_WORD: call.positions}
        buffers |= {"values": call.values}
    return line_of(call.kind, lists, buffers)


def read_call(line):
    kind, lists, buffers = read_line(line)
    if POSITIONS_WORD in lists:
        lists["positions"] = lists.pop(POSITIONS_WORD)
    return Call(kind=kind, **lists, **buffers)


def listed_cells(cells):
    return ",".join(f"{cell}:{content}" for cell, content in cells)


def weight_words(outcome):
    if outcome.rows is None:
        return [f"num={SAME}", f"den={SAME}"]
    cells = outcome.cells().items()
    num = listed_cells((cell, weight.numerator) for cell, weight in cells)
    den = listed_cells((cell, weight.denominator) for cell, weight in cells
                       if weight.denominator != 1)
    return [f"num={num}", f"den={den}"]


def changed_word(word, before, after):
    """A lent buffer by its cells that differ from their old content; cells that `after` doesn't reach have kept it."""
    changed = [(cell, now) for cell, (old, now) in enumerate(zip(before, after)) if now != old]
    return f"{word}={listed_cells(changed) or SAME}"


def value_word(pairs, lent):
    return changed_word("values", lent.contents(VALUE_BITS), side_by_side(pairs or []))


def result_line(call, outcome):
    """The line a right engine's driver prints for the call."""
    words = ["reply=" + listed(outcome.reply), *weight_words(outcome)]
    if call.kind == "curve":
        words.append(value_word(outcome.values, call.values))
    return " ".join(words)


def printed_values(call, line):
    """The pairs of values of an answered curve call, from its result line."""
    text = line.rpartition(" values=")[2]
    values = [call.values.old(cell, VALUE_BITS) for cell in range(PARTS * len(call.positions))]
    if text != SAME:
        for entry in text.split(","):
            cell, value = map(int, entry.split(":"))
            values[cell] = value
    return [Pair(*pair) for pair in zip(values[::PARTS], values[1::PARTS])]
