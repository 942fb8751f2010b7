"""Compares the program rings with the rational program on random inputs.

usage: compare_rings.py RINGS [--count N] [--seed S] [--case FILE]

Each input is one process, given on standard input. Everything it prints must
equal the model's text byte for byte, and it must end with status 0 and write
nothing to standard error. An input as long as the program takes comes first, with
a byte more and a byte less, then series of 4,096 rings and one more, sheets as
long as may be and one byte longer, and first lines that name no wood. The first
difference is shown, and its input is kept in a file, which --case runs again.
"""

import re
import sys
from collections import Counter
from pathlib import Path
from random import Random

from comparing import arguments, compare_texts, failed, finished

from limits import MOST_POSITIONS, MOST_SHEET_BYTES, MOST_TUCSON_BYTES
from random_sheets import entries_of, padded
from random_table import WOOD_DAMAGE, random_input
from table import rings
from tucson import Series, write_tucson

GATE_COUNT = 1_000
REFUSED_SERIES = re.compile(rb",,,no=([0-9]+)\n")
REACHABLE = {"answers", *(f"number {number}" for number in (1, 2, 3, 4, 5, 6, 8, 11, 12, 13, 15)),
             *(f"number 10, place {place}" for place in range(7)), *(f"series {number}" for number in (2, 7, 14))}
# A beam that falls by whole thousandths in each wood, over the years -10 to 5,990.
BEAM = (b"wood=%b\nbreaks=-10,1990,3990,5990\ndegrees=1,2,1\norders=-1,-1\n"
        b"coefs=3000:9,2000:9,1500:9,800:7,700:5,600:7,500:9\nat=%b\n")


def long_series(name, first, count):
    return Series(name, first, tuple(7 * ring % 3000 for ring in range(count)))


def full_input():
    """As many bytes as the program takes, by series of 4,000 rings and a long list of positions."""
    series = [long_series(b"OAK%02d   " % place, place, 4_000) for place in range(35)]
    text = write_tucson(series)
    room = MOST_TUCSON_BYTES - len(text) - len(BEAM % (b"earlywood", b""))
    return BEAM % (b"earlywood", entries_of(room + 1)) + text


def long_inputs():
    full = full_input()
    assert len(full) == MOST_TUCSON_BYTES
    series = [long_series(b"A,\"B    ", -9, MOST_POSITIONS), long_series(b"=1+1    ", 0, MOST_POSITIONS + 1),
              long_series(b"OAK     ", 5_980, 11), long_series(b"ELM     ", 5_980, 12)]
    text = write_tucson(series)
    return [full, full + b"\n", full[:-1], *(BEAM % (wood, b"") + text for wood in (b"earlywood", b"latewood")),
            *long_sheets(text)]


def long_sheets(text):
    """Sheets of as many bytes as one may have, one more and one less, with and without an end."""
    wood, *lines = (BEAM % (b"latewood", b"")).splitlines()
    sheets = [padded(lines, MOST_SHEET_BYTES + spare) for spare in (-1, 0, 1)]
    return [wood + b"\n" + sheet + end for sheet in sheets for end in (b"", text)] + [wood + b"\n" + sheets[1][:-1] + b"0"]


def counting(marked):
    """The model, which counts the series that it refuses."""
    def model(data):
        printed = rings(data)
        marked.update(f"series {number.decode()}" for number in REFUSED_SERIES.findall(printed))
        return printed
    return model


def grouped(replies):
    """Refusals by their number, those of the sheet by their place too."""
    seen = Counter()
    for reply, times in replies.items():
        number, _, place = reply.partition(",")
        seen[f"{number}, place {place}" if number == "number 10" else number] += times
    return seen


def main():
    chosen = arguments("the program rings", GATE_COUNT, "program", "a file with one input to run again")
    print(f"compare_rings: seed {chosen.seed}")
    rng, replies, marked = Random(chosen.seed), Counter(), Counter()
    texts = ([Path(chosen.case).read_bytes()] if chosen.case
             else [*long_inputs(), *WOOD_DAMAGE] + [random_input(rng) for _ in range(chosen.count)])
    found = compare_texts(chosen.program, counting(marked), texts, replies)
    if found:
        return failed("compare_rings", found, grouped(replies), chosen.seed)
    return finished("compare_rings", grouped(replies), REACHABLE, marked)


if __name__ == "__main__":
    sys.exit(main())
