"""Compares the program tucson with the rational program on random texts.

usage: compare_filter.py TUCSON [--count N] [--seed S] [--case FILE]

Each text is one process, given on standard input. Everything it prints must
equal the model's text byte for byte, and it must end with status 0 and write
nothing to standard error. Texts as long as the program holds come first, of
most series and of most widths, and one byte more, which it must refuse. The
first difference is shown, and its text is kept in a file, which --case runs
again.
"""

import sys
from collections import Counter
from pathlib import Path
from random import Random

from comparing import arguments, compare_texts, failed, finished

from limits import DECADE, FIELD_COLUMNS, LEAST_YEAR, MOST_TUCSON_BYTES, MOST_YEAR
from random_tucson import NAMES, random_text
from tucson import HEAD, Series, filtered, write_tucson

GATE_COUNT = 1_000
REACHABLE = {"answers", "number 1", "number 11", "number 12", "number 13"}
LINE_BYTES = HEAD + 1             # beside its fields
SHORTEST = LINE_BYTES + FIELD_COLUMNS   # a series without widths
WHOLE_SERIES = 13                 # of all years, that the program holds


def most_series():
    """As many series as the program can hold, with four bytes to spare."""
    made = [Series(NAMES[place % 2], 1900, ()) for place in range(MOST_TUCSON_BYTES // SHORTEST)]
    return write_tucson(made)


def bytes_of(year, size):
    """Of a series from this year with so many widths."""
    return LINE_BYTES * ((year % DECADE + size) // DECADE + 1) + FIELD_COLUMNS * (size + 1)


def most_widths():
    """Series from the least to the greatest year, and some that fill the rest to the last byte."""
    whole = tuple(range(MOST_YEAR - LEAST_YEAR))
    made = [Series(NAMES[place % 2], LEAST_YEAR, whole) for place in range(WHOLE_SERIES)]
    left = MOST_TUCSON_BYTES - len(write_tucson(made))
    empty, year, size = next((empty, year, size) for empty in range(DECADE) for year in range(DECADE)
                             for size in range(left // FIELD_COLUMNS)
                             if SHORTEST * empty + bytes_of(year, size) == left)
    made += [Series(NAMES[2 + place % 2], 0, ()) for place in range(empty)]
    return write_tucson(made + [Series(NAMES[4], year, (7,) * size)])


def long_texts():
    full = most_widths()
    assert len(full) == MOST_TUCSON_BYTES
    closed = most_series()
    return [closed, closed.replace(b" -9999", b"   999"), full, full + b"\n", full[:-1], full + full]


def main():
    chosen = arguments("the program tucson", GATE_COUNT, "program", "a file with one text to run again")
    print(f"compare_filter: seed {chosen.seed}")
    rng, places, seen = Random(chosen.seed), Counter(), Counter()
    texts = ([Path(chosen.case).read_bytes()] if chosen.case
             else long_texts() + [random_text(rng) for _ in range(chosen.count)])
    found = compare_texts(chosen.program, filtered, texts, places)
    for reply, times in places.items():
        seen[reply.partition(",")[0]] += times
    if found:
        return failed("compare_filter", found, seen, chosen.seed)
    return finished("compare_filter", seen, REACHABLE)


if __name__ == "__main__":
    sys.exit(main())
