"""Counts the instructions of sorting the low lines, whatever their order was.

usage: low_order.py SHEET

The program prints 4,096 low positions that are listed rising, falling and
shuffled, under valgrind's callgrind, and the low lines must come out rising.
Falling may cost at most twice rising, in the sort and in the whole program,
and 4,096 positions at most FACTOR times half as many, in the sort: n log n
steps give 24/11. The sort's counts are the same in every run.
"""

import re
import subprocess
import sys
import tempfile
from pathlib import Path
from random import Random

COUNT = 4_096
SPACING = 100             # 256ths of a ring from one position to the next
SPACE = "breaks=0,2000\ndegrees=1\norders=\ncoefs=-1000:-1000,-1000:-1000\n"
SHUFFLED_SEED = 1
MOST_RATIO = 2
FACTOR = 2.5
SORT = re.compile(r"^\s*([\d,]+) .*\bbase_sorting::", re.MULTILINE)
TOTAL = re.compile(r"^\s*([\d,]+) .*PROGRAM TOTALS", re.MULTILINE)


def sheet_text(positions):
    return f"{SPACE}at={','.join(map(str, positions))}\n".encode("ascii")


def counted(pattern, report):
    return sum(int(count.replace(",", "")) for count in pattern.findall(report))


def measured(program, positions):
    """Instructions of the sort and of the whole program, with the low lines."""
    with tempfile.TemporaryDirectory() as folder:
        profile = str(Path(folder) / "profile")
        run = subprocess.run(["valgrind", "--tool=callgrind", "-q",
                              f"--callgrind-out-file={profile}", program],
                             input=sheet_text(positions), capture_output=True, check=True)
        report = subprocess.run(["callgrind_annotate", "--threshold=100", profile],
                                capture_output=True, check=True, text=True).stdout
    low = [line for line in run.stdout.decode("ascii").splitlines() if line.startswith("low=")]
    return counted(SORT, report), counted(TOTAL, report), low


def main():
    program = sys.argv[1]
    rising = [SPACING * place for place in range(COUNT)]
    orders = {"rising": rising, "falling": rising[::-1],
              "shuffled": Random(SHUFFLED_SEED).sample(rising, COUNT),
              "half, falling": rising[COUNT // 2 - 1::-1]}
    costs = {}
    failures = []
    for name, positions in orders.items():
        sort, total, low = measured(program, positions)
        costs[name] = sort, total
        print(f"  {name:13} {len(positions):5} positions  sort {sort:9,}  program {total:9,}")
        if low != [f"low={position}" for position in sorted(positions)]:
            failures.append(f"{name}: the low lines are not in order")
        if not sort:
            failures.append(f"{name}: no instruction of the sort was counted")
    for name in ("falling", "shuffled"):
        for part, cost, least in zip(("sort", "program"), costs[name], costs["rising"]):
            if cost > MOST_RATIO * least:
                failures.append(f"{name}: the {part} costs more than twice that of rising")
    if costs["falling"][0] > FACTOR * costs["half, falling"][0]:
        failures.append("the sort of twice as many costs too much more")
    for failure in failures:
        print("failed:", failure)
    print(f"low_order: {len(orders)} orders, {len(failures)} failed")
    return 1 if failures else 0


if __name__ == "__main__":
    sys.exit(main())
