"""Compares the sheet program with the rational program on random sheets.

usage: compare_sheets.py SHEET [--count N] [--seed S] [--case FILE]

Each sheet is one process. Everything it prints must equal the model's text
byte for byte, and it must end with status 0 and write nothing to standard
error. The first difference is shown, and its sheet is kept in a file, which
--case runs again. From 2,000 sheets on, every number that a sheet can show, and
every place of number 10, must have come up.
"""

import sys
import time
from collections import Counter
from pathlib import Path

from comparing import ENOUGH, arguments, compare_texts, failed, status_of

from cases import CASES, W1_PRINTOUT, W1_SHEET, case_sheet
from generate import sheets
from walzhik_reference import sheet

GATE_COUNT = 2_000
FAR = range(2 ** 8, 2 ** 32 - 1)  # places that need more than a byte
REACHABLE = {"answers", *(f"number {number}" for number in range(2, 9)),
             *(f"number 10,{place}" for place in range(7))}


def fixed_sheets():
    return [W1_SHEET] + [case_sheet(case) for case in CASES]


def print_summary(seen, seconds):
    grouped = Counter()
    for reply, count in seen.items():
        grouped[reply.partition(",")[0]] += count
    for name in sorted(grouped, key=lambda reply: (len(reply), reply)):
        print(f"  {name:9} {grouped[name]:6}")
    tens = sorted(reply.partition(",")[2] for reply in seen if reply.startswith("number 10,"))
    print(f"  places of number 10: {' '.join(tens)}")
    print(f"  {sum(seen.values()) / seconds:.0f} sheets a second")


def missing_replies(seen):
    """What a sheet can show and none showed; 10 counts by its place, the others by their number."""
    shown = set(seen) | {reply.partition(",")[0] for reply in seen}
    far = any(int(reply.partition(",")[2] or 0) in FAR for reply in seen)
    return sorted(REACHABLE - shown) + ["a place of more than a byte"] * (not far)


def main():
    chosen = arguments("the sheet program", GATE_COUNT, "program", "a file with one sheet to run again")
    print(f"compare_sheets: seed {chosen.seed}")
    assert sheet(W1_SHEET) == W1_PRINTOUT
    texts = ([Path(chosen.case).read_bytes()] if chosen.case
             else fixed_sheets() + list(sheets(chosen.seed, chosen.count)))
    seen = Counter()
    start = time.monotonic()
    found = compare_texts(chosen.program, sheet, texts, seen)
    if found:
        return failed("compare_sheets", found, seen, chosen.seed)
    print_summary(seen, time.monotonic() - start)
    total = sum(seen.values())
    missing = missing_replies(seen) if total >= ENOUGH else []
    return status_of("compare_sheets", total, missing)


if __name__ == "__main__":
    sys.exit(main())
