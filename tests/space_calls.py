"""The lines of calls that are lent lists of a curve and both weight buffers, and one number more.

A call line is the call's name with the words of a curve line
(tests/reference/protocol.py), the number's word in the place of `at=`, and no
values. `SpaceCall` wraps a random call for tests/comparing.py, and `compare_space_calls`
is the program that compares them.
"""

import sys
from pathlib import Path

from comparing import arguments, compare_calls, kind_of
from protocol import SPACE_WORDS, line_of, read_line

LISTS = (*SPACE_WORDS, "coefs")
BUFFERS = ("num", "den")


def space_line(name, call, number):
    """The line of a call whose own number has this name."""
    lists = {word: getattr(call, word) for word in LISTS} | {number: [getattr(call, number)]}
    return line_of(f"{call.part}_{name}", lists, {word: getattr(call, word) for word in BUFFERS})


def read_space_line(line, make, number):
    """The call of a line, so that a printed case can be run again."""
    name, lists, buffers = read_line(line)
    lists[number], = lists[number]
    return make(part=name.partition("_")[0], **lists, **buffers)


class SpaceCall:
    """A call with its line and the line of a right engine; `result` gives that line, the number and a word for the tally."""

    def __init__(self, name, number, call, result):
        self.asked, self.call, self.result = space_line(name, call, number), call, result

    def line(self):
        return self.asked

    def expected(self):
        line, number, kind = self.result(self.call)
        return line, kind or kind_of(number)


def compare_space_calls(name, number, make, draw, result, count, reachable):
    """The status of comparing so many random calls of a name, whose own number has this name, or the case that is given."""
    def asked(call):
        return SpaceCall(name, number, call, result)

    script = Path(sys.argv[0]).stem
    return compare_calls(script, arguments(f"the {name} calls", count), lambda rng: asked(draw(rng)),
                         lambda line: asked(read_space_line(line, make, number)), reachable)
