"""Checks the rational program against what the specification states.

usage: selfcheck.py [--count N] [--seed S]

First W1 to W10 with all that is stated of them and the sheet's number 10, then
the sparse form of random calls against full buffers, then random spaces with
all that the demands promise, then Tucson texts and lists, laboratories' files,
lines of the table and the program rings, coefficients from ordinates, widths
that a curve reaches, and pieces. Exits non-zero on any difference.
"""

import argparse
import sys
from collections import Counter
from fractions import Fraction
from random import SystemRandom

from cases import (CASES, ODD_CASES, PLAIN_SUMS, SIZE_CASES, W1_PRINTOUT, W1_SHEET,
                   case_call, case_sheet, short_calls, stated_lines)
from cleaningcheck import check_cleaning
from generate import calls
from limits import CELLS, LARGEST_PLACE, MOST_LIST_ENTRIES, MOST_SHEET_BYTES, SIDE, UNIT
from piecescheck import check_pieces
from protocol import (SAME, VALUE_BITS, WEIGHT_BITS, call_line, listed_cells, read_call,
                      result_line)
from random_sheets import padded
from reachcheck import check_reach
from reading import rounded
from recoverycheck import check_recovery
from spacecheck import check_spaces
from tablecheck import check_table
from tucsoncheck import check_tucson
from walzhik_reference import build, build_outcome, curve, sheet

SPACES = 3_000
RECOVERY_SHARE = 3       # one call that recovers coefficients for so many spaces
PIECES = 150             # random piece calls
EXPANDED = 300           # random calls whose full buffers are compared
REACHED = 150            # random reach calls
ROUNDED = 20             # size of the parts of the quotients that are rounded
HALF = Fraction(1, 2)


class Tally:
    """Counts checks and prints those that fail."""

    def __init__(self):
        self.passed = self.failed = 0

    def check(self, holds, *what):
        if holds:
            self.passed += 1
        else:
            self.failed += 1
            print("failed:", *what)


# W1 to W10.

def column_weights(outcome, column):
    return [row[column] for row in outcome.rows if column in row]


def check_case(tally, case):
    """The stated facts on the model's outcome."""
    outcome = case_call(case).outcome()
    reply = outcome.reply
    tally.check((reply.number, reply.place) == (case.number, case.place), case.name, reply)
    if case.rows is not None:
        tally.check(len(outcome.rows) == case.rows, case.name, "n")
    if case.weights:
        table = {divmod(cell, SIDE): weight for cell, weight in outcome.cells().items()}
        tally.check(table == case.weights, case.name, "weights")
    for column, weights in case.columns.items():
        tally.check(column_weights(outcome, column) == weights, case.name, "column", column)
    got = dict(zip(case.positions, outcome.values or []))
    tally.check(case.values.items() <= got.items(), case.name, "values", got)


def check_case_sheet(tally, case):
    printed = sheet(case_sheet(case)).decode("ascii").splitlines()
    tally.check(Counter(stated_lines(case)) <= Counter(printed), case.name, "printout", printed)
    if case.number:
        tally.check(len(printed) == 1, case.name, "a refusal prints one line")


def check_cases(tally):
    for case in CASES:
        check_case(tally, case)
        check_case_sheet(tally, case)
    for case in ODD_CASES:
        check_case(tally, case)
    for call in short_calls():
        tally.check(call.outcome().reply == (0, 1, 2), "short values", call_line(call))
    tally.check(sheet(W1_SHEET) == W1_PRINTOUT, "W1 printout")
    for lists, column, stated in PLAIN_SUMS:
        weights = column_weights(build_outcome(*lists, CELLS, CELLS), column)
        plain = sum(rounded(UNIT * weight.numerator, weight.denominator) for weight in weights)
        tally.check(plain == stated, "plain sum", lists, plain)


def check_rounding(tally):
    """Halves go up on both sides of zero; elsewhere it is the nearest."""
    halves = {-3: -1, -1: 0, 1: 1, 3: 2}
    tally.check(all(rounded(top, 2) == whole for top, whole in halves.items()), "halves")
    for bottom in range(1, ROUNDED):
        for top in range(-ROUNDED, ROUNDED):
            apart = Fraction(top, bottom) - rounded(top, bottom)
            tally.check(-HALF <= apart < HALF, "rounding", top, bottom)


def check_size_cases(tally):
    for breaks, degrees, orders, number in SIZE_CASES:
        reply = build_outcome(breaks, degrees, orders, CELLS, CELLS).reply
        tally.check(reply.number == number, "size case", breaks, reply)


# The sheet's number 10.

def long_line(count):
    return W1_SHEET.replace(b"at=256,512", b"at=" + b",".join([b"0"] * count))


def check_sheet_text(tally):
    lines = W1_SHEET.splitlines()
    refused = {
        b"": 1, b"\n": 1, W1_SHEET[:-1]: 5, W1_SHEET + b"\n": 6, W1_SHEET + b"x": 6,
        b"breaks=0,1,3\n": 2, W1_SHEET.replace(b"\n", b"\r\n"): 1,
        W1_SHEET.replace(b"=1\n", b"=01\n"): 3, W1_SHEET.replace(b"=1\n", b"=+1\n"): 3,
        W1_SHEET.replace(b"=0:0", b"=-0:0"): 4, W1_SHEET.replace(b"=0:0", b"=0:-0"): 4,
        W1_SHEET.replace(b"=0:0", b"=0"): 4, W1_SHEET.replace(b"=0:0", b"=0:"): 4,
        W1_SHEET.replace(b"=0:0", b"=:0"): 4, W1_SHEET.replace(b"=0:0", b"=0:0:0"): 4,
        W1_SHEET.replace(b"256", b"256:256"): 5, W1_SHEET.replace(b"512", b"512,"): 5,
        W1_SHEET.replace(b"512", b"12345678"): 5, W1_SHEET.replace(b"2,2", b"2,,2"): 2,
        W1_SHEET.replace(b"2,2", b"2,\xd9\xa1"): 2, W1_SHEET.replace(b"coefs", b"Coefs"): 4,
        long_line(MOST_LIST_ENTRIES + 1): 5, b"x" * (MOST_SHEET_BYTES + 1): 0,
        b"x" * MOST_SHEET_BYTES: 1, padded(lines, MOST_SHEET_BYTES + 1): 0,
    }
    for text, place in refused.items():
        tally.check(sheet(text) == b"no=10,%d\n" % place, "sheet", text[:60], place)
    full = padded(lines, MOST_SHEET_BYTES)
    tally.check(len(full) == MOST_SHEET_BYTES, "full sheet")
    tally.check(sheet(full) == b"no=6,%d\n" % LARGEST_PLACE, "full sheet is read")
    tally.check(sheet(long_line(MOST_LIST_ENTRIES)).startswith(b"n=4\n"), "longest list")


# Full buffers against the sparse form.

def table_word(name, old, new, blank):
    if old == new:
        return f"{name}={SAME}"
    rule = [blank] * CELLS + old[CELLS:]
    return f"{name}=" + listed_cells((i, cell) for i, cell in enumerate(new) if cell != rule[i])


def expanded_line(call):
    """The result line by its definition, from the full buffers."""
    lists = (call.breaks, call.degrees, call.orders)
    num, den = call.num.contents(WEIGHT_BITS), call.den.contents(WEIGHT_BITS)
    if call.kind == "build":
        reply, new_num, new_den = build(*lists, num, den)
        values = new_values = []
    else:
        values = call.values.contents(VALUE_BITS)
        reply, new_num, new_den, new_values = curve(
            *lists, call.coefs, call.positions, num, den, values)
    words = ["reply=" + ",".join(map(str, reply)), table_word("num", num, new_num, 0),
             table_word("den", den, new_den, 1)]
    if call.kind == "curve":
        changed = listed_cells((i, cell) for i, cell in enumerate(new_values)
                               if cell != values[i])
        words.append(f"values={changed or SAME}")
    return " ".join(words)


def check_protocol(tally, seed, count):
    for call in calls(seed, count):
        tally.check(read_call(call_line(call)) == call, "call line", call_line(call))
        tally.check(expanded_line(call) == result_line(call, call.outcome()),
                    "result line", call_line(call))


def main():
    parser = argparse.ArgumentParser(description="check the rational program by itself")
    parser.add_argument("--count", type=int, default=SPACES)
    parser.add_argument("--seed", type=int, default=None)
    chosen = parser.parse_args()
    seed = SystemRandom().randrange(2 ** 32) if chosen.seed is None else chosen.seed
    print(f"selfcheck: seed {seed}")
    tally = Tally()
    check_rounding(tally)
    check_cases(tally)
    check_size_cases(tally)
    check_sheet_text(tally)
    check_protocol(tally, seed, EXPANDED)
    check_spaces(tally, seed, chosen.count)
    check_tucson(tally, seed, chosen.count)
    check_cleaning(tally, seed, chosen.count)
    check_table(tally, seed, chosen.count)
    check_recovery(tally, seed, chosen.count // RECOVERY_SHARE)
    check_reach(tally, seed, REACHED)
    check_pieces(tally, seed, PIECES)
    print(f"selfcheck: {tally.passed} passed, {tally.failed} failed")
    return 1 if tally.failed else 0


if __name__ == "__main__":
    sys.exit(main())
