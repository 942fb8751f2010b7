"""Holds the words of the package's explain against the rational program.

usage: explain.py [--count N] [--seed S]

For random sheets and those in examples/ the words must name the entry that the number and the place
name and the rule that it breaks, in ASCII and in two lines; a line has a fault
in words exactly where the model finds it bad. What can be counted on of an
accepted sheet must have the model's figures, and hold of the model's values. Random Tucson texts must be told
with the model's series, or with the number and line that the model refuses them
with, in words that name the line. Each kind of fault must have come up.
"""

import argparse
import re
import sys
from collections import Counter
from pathlib import Path
from random import Random, SystemRandom

HERE = Path(__file__).resolve().parent
sys.path[:0] = [str(HERE / "reference"), str(HERE.parent / "python" / "src")]
sys.dont_write_bytecode = True

import tucson
from generate import sheets
from limits import DISCONTINUITY, MOST_SHEET_BYTES, UNIT
from random_tucson import random_text
from sheet import LINES, Refusal, read_sheet, sheet
from reading import part_values
from space import Space
from walzhik.explain import COUNT_ON, explain_printed, explain_tucson, with_promises
from walzhik.words.sheet import facts_of
from walzhik.words.table import chosen
from walzhik_reference import build_rows, by_column, most_weights

GATE_COUNT = 2_000
LONGEST = 420                # characters of a line of words


# What the words must say for each number, as a pattern over the entry's numbers.
PATTERNS = {
    2: (r"degrees= lists (no stretches|[\d,]+ stretches): a curve has 1 to 48\.",
        r"degrees= lists \d+ stretch(es)?, which need \d+ breakpoints and (no|\d+) orders?, but breaks= lists .*\."),
    3: (r"Breakpoint {place} is {entry}: each is from -10,000 to 10,000\.",
        r"Breakpoint {place} is {entry}, but breakpoint \d+, before it, is -?\d+: each is above the one before\.",
        r"Breakpoint {place} is {entry} and breakpoint \d+ is -?\d+, a span of [\d,]+ rings without a scar: at most 2,000\."),
    4: (r"Stretch {place}, from ring -?\d+ to ring -?\d+, has degree {entry}: each degree is from 1 to 5\.",),
    5: (r"Join {place}, at ring -?\d+, has order {entry}: an order is -1 \(a scar\), 0, 1 or 2\.",
        r"Join {place}, at ring -?\d+, has order {entry}, but the stretch before it has degree \d: at most \d\.",
        r"Join {place}, at ring -?\d+, has order {entry}, but the stretch after it has degree \d: at most \d\.",
        r"Join {place}, at ring -?\d+, has order {entry}, but the stretches on both sides have degree \d: at most \d\."),
    6: (r"coefs= lists (no|[\d,]+) pairs?, but this curve takes \d+ pairs?: .* = \d+\.",
        r"Pair \d+ of coefs= is -?\d+:-?\d+, with (early|late)wood {entry}: each number is from -1,000,000 to 1,000,000 .*\."),
    7: (r"Entry {place} of at= is {entry}, ring .*, before the first breakpoint, ring -?\d+: at least -?\d+ .*\.",
        r"Entry {place} of at= is {entry}, ring .*, past the last breakpoint, ring -?\d+: at most -?\d+ .*\."),
    8: (r"Join {place}, at ring -?\d+, has order 2 between .*2,147,483,648 .*\.",),
    15: (r"From stretch {place}, at ring -?\d+, \d+ stretches follow .*, to ring -?\d+: a curve has at most 12\.",
         r"From stretch {place}, at ring -?\d+, \d+ stretches follow .*, to ring -?\d+: a part between scars has at most 12\."),
}
LISTS = {3: "breaks", 4: "degrees", 5: "orders", 7: "at"}
PLACES_OF_TEN = (r"The file has more than 65,536 bytes: at most 65,536\.", *(rf"Line {line}\b.*\." for line in range(1, 7)))


def entry_at(text, number, place):
    """The number that a place names, from the model's reading of the sheet."""
    names = [name.decode("ascii") for name, _ in LINES]
    lists = dict(zip(names, read_sheet(text)))
    entries = lists["coefs"] if number == 6 else lists.get(LISTS.get(number), [])
    return entries[place] if place < len(entries) else ""


def bad_lines(text):
    """Whether the model finds each of lines one to five bad, by itself among good ones."""
    good = [b"breaks=0,1\n", b"degrees=1\n", b"orders=\n", b"coefs=\n", b"at=\n"]
    pieces = text.split(b"\n")
    for place in range(len(good)):
        line = pieces[place] + (b"\n" if place + 1 < len(pieces) else b"") if place < len(pieces) else b""
        ended = line.endswith(b"\n")
        try:
            read_sheet(b"".join(good[:place]) + line + (b"".join(good[place + 1:]) if ended else b""))
            yield False
        except Refusal:
            yield True


def figures(space, columns):
    """The figures of what can be counted on: the most years, the move by one thousandth, the closeness."""
    starts, acting = space.first_columns(), {}
    for segment in range(len(space.degrees)):
        for column in columns[starts[segment]:starts[segment + 1]]:
            for row, _ in column:
                acting.setdefault(row, []).append(segment)
    years = {row: space.breaks[max(stretches) + 1] - space.breaks[min(stretches)] for row, stretches in acting.items()}
    most = [most_weights(space, columns, segment) for segment in range(len(space.degrees))]
    closeness = max(weights + degree for weights, degree in zip(most, space.degrees)) / 2
    return years, (UNIT + max(most) - 1) / UNIT, closeness


# Which way the words say that a curve does not go, as what two values that follow each other must be.
NEVER = {"rises": lambda one, other: other <= one, "falls": lambda one, other: other >= one}


def direction_fault(line, space, values, seen):
    """A curve that is said never to rise, or to fall, does not."""
    name, way, scars = re.match(r"- The (\w+) never (rises|falls)( except at a scar)?:", line).groups()
    side = 1 if name == "latewood" else 0
    scarred = {UNIT * point for point, order in zip(space.breaks[1:], space.orders) if scars and order == DISCONTINUITY}
    seen[f"never {way}{scars or ''}"] += 1
    pairs = [(one, other) for one, other in zip(values, values[1:]) if not any(one[0] <= scar < other[0] for scar in scarred)]
    return next((f"{line!r} of {pair}" for pair in pairs if not NEVER[way](pair[0][1][side], pair[1][1][side])), None)


def promises_fault(text, lines, seen):
    """What is wrong with what can be counted on of an accepted sheet, or None."""
    breaks, degrees, orders, coefs, at = read_sheet(text)
    space = Space(breaks, degrees, orders)
    columns = by_column(space, build_rows(space))
    years, move, closeness = figures(space, columns)
    told = re.fullmatch(r"- A coefficient .* The widest, of row (\d+), acts on (\d+|[\d,]+) years?, from ring (-?\d+) to ring (-?\d+)\.", lines[1])
    if lines[0] != COUNT_ON or not told or not all(line.startswith("- ") and line.isascii() for line in lines[1:]):
        return f"no list: {lines!r}"
    row, widest, first, last = (int(part.replace(",", "")) for part in told.groups())
    if years[row] != max(years.values()) or not widest == last - first == years[row]:
        return f"{lines[1]!r}, the model has {years}"
    wanted = [f"- Coefficients that are off by one thousandth move no value by more than {move:.4f} thousandths.",
              "- Raising coefficients lowers no value.",
              f"- Every value is within {closeness:g}/256 of a thousandth of a millimetre of the exact curve."]
    if lines[2:5] != wanted:
        return f"{lines[2:5]}, the model has {wanted}"
    positions = sorted(set(at))
    sides = [part_values(space, columns, coefs[side::2], positions) for side in (0, 1)]
    values = list(zip(positions, zip(*sides)))
    for line in lines[5:]:
        if " never " in line and "refused" not in line:
            fault = direction_fault(line, space, values, seen)
            if fault:
                return fault
        if "above zero everywhere" in line and any(min(pair) <= 0 for _, pair in values):
            return f"{line!r}, but a value is low"
        if "above the earlywood" in line and any(late > early for _, (early, late) in values):
            return f"{line!r}, but a value is"
    seen["promised"] += 1
    return None


def words_fault(text, seen):
    """What is wrong with the words for a sheet, or None."""
    printed = sheet(text)
    words, is_accepted = explain_printed(text, printed)
    lines = words.split("\n")
    if not words.isascii() or len(lines) != 2 or max(map(len, lines)) > LONGEST:
        return f"not two short lines of ASCII: {words!r}"
    if len(text) <= MOST_SHEET_BYTES and len(text.split(b"\n")) > len(LINES):
        found = [chosen(10, "sheet", {"place": place + 1, **facts_of(text, place + 1)}) is not None for place in range(len(LINES))]
        if found != list(bad_lines(text)):
            return f"faults found in lines: {found}"
    if not printed.startswith(b"no="):
        seen["accepted"] += 1
        if not is_accepted or not lines[0].startswith("Accepted: "):
            return f"accepted, but {words!r}"
        return promises_fault(text, with_promises(explain_printed(text, printed), text).words.split("\n")[2:], seen)
    number, place = (int(part) for part in printed[3:].split(b","))
    patterns = PLACES_OF_TEN[place:place + 1] if number == 10 else PATTERNS[number]
    entry = "" if number == 10 else entry_at(text, number, place)
    for kind, pattern in enumerate(patterns, start=place if number == 10 else 0):
        if re.fullmatch(pattern.replace("{place}", str(place)).replace("{entry}", str(entry)), lines[1]):
            seen[f"{number}, kind {kind}"] += 1
            return None if not is_accepted and lines[0] == f"Refused: no={number},{place}." else f"refused, but {words!r}"
    return f"no={number},{place} is not said: {words!r}"


def series_words(series):
    """How the line of a series begins and ends, by the model's numbers."""
    name = series.name.decode("ascii").strip(" ").replace("\\", "\\x5c")
    if not series.widths:
        return f"Series '{name}' has no widths.", ""
    absent = series.widths.count(0)
    rings = {0: "no rings", 1: "1 ring"}.get(absent, f"{absent:,} rings")
    return f"Series '{name}': {len(series.widths):,} width", f", {rings} absent."


def tucson_fault(text, seen):
    """What is wrong with the words for a Tucson text, or None."""
    words, is_accepted = explain_tucson(text)
    first, *lines = words.split("\n")
    if not words.isascii():
        return f"not ASCII: {words!r}"
    try:
        series = tucson.read_tucson(text)
    except Refusal as refusal:
        seen[f"Tucson {refusal.number}"] += 1
        said = first == f"Refused: no={refusal.number},{refusal.place}." and lines[0].startswith(f"Line {refusal.place} ")
        return None if said and not is_accepted else f"{words!r}, the model has {refusal.number}, {refusal.place}"
    seen["Tucson read"] += 1
    fit = [line.startswith(begin) and line.endswith(end) for line, (begin, end) in zip(lines, map(series_words, series))]
    told = is_accepted and first == f"Accepted: {len(series):,} series." and len(lines) == len(series)
    return None if told and all(fit) else f"{words!r}, the model has {len(series)} series"


def wanted():
    return {"accepted", "promised", "never rises", "never falls", *(f"{number}, kind {kind}" for number, kinds in PATTERNS.items() for kind in range(len(kinds))),
            *(f"10, kind {place}" for place in range(7)), "Tucson read", *(f"Tucson {number}" for number in (11, 12, 13))}


def main():
    parser = argparse.ArgumentParser(description="hold the words against the model")
    parser.add_argument("--count", type=int, default=GATE_COUNT)
    parser.add_argument("--seed", type=int, default=None)
    chosen = parser.parse_args()
    seed = SystemRandom().randrange(2 ** 32) if chosen.seed is None else chosen.seed
    print(f"explain: seed {seed}")
    rng, seen, failed = Random(seed), Counter(), 0
    kept = [path.read_bytes() for path in sorted((HERE.parent / "examples").glob("*/*.sheet"))]
    kept.append(b"x" * (MOST_SHEET_BYTES + 1))
    cases = [(text, words_fault) for text in [*kept, *sheets(seed, chosen.count)]]
    cases += [(random_text(rng), tucson_fault) for _ in range(chosen.count)]
    for text, check in cases:
        fault = check(text, seen)
        if fault:
            failed += 1
            print(f"{text[:400]!r}: {fault}")
    missing = sorted(wanted() - set(seen))
    for kind in missing:
        print(f"never seen: {kind}")
    print(f"explain: {len(cases) - failed} passed, {failed + len(missing)} failed")
    return 1 if failed or missing else 0


if __name__ == "__main__":
    sys.exit(main())
