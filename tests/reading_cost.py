"""Counts the instructions a byte of reading Tucson texts of 100 kB and of 1 MB.

usage: reading_cost.py DRIVER

The driver for Tucson files reads each text under valgrind's callgrind, and the
instructions of the call `walzhik_tucson_read`, the work below it included, are
counted: for 1 MB at most MOST_RATIO times as many a byte as for 100 kB. The
texts have long series in both units, or many series of one width.
"""

import re
import subprocess
import sys
import tempfile
from pathlib import Path

from comparing import VALGRIND

from protocol import listed
from random_tucson import NAMES, closed_lines
from tucson import Series

SMALL, LARGE = 100_000, 1_000_000
MOST_RATIO = 1.2
CALL = re.compile(r"^\s*([\d,]+) .*\bwalzhik_tucson_read\b", re.MULTILINE)
LONG, SHORT = tuple(range(1_000)), (7,)
TEXTS = {"thousandths": (LONG, -9_999), "hundredths": (LONG, 999), "short series": (SHORT, -9_999)}


def text_of(widths, closing, least):
    """Series of these widths, as many as fill so many bytes."""
    each = [b"".join(closed_lines(Series(name, -999, widths), closing)) for name in NAMES[:2]]
    count = least // len(each[0]) + 1
    return b"".join(each[place % 2] for place in range(count))


def call_of(text):
    return (f"read text={listed(text)} names={len(text) // 19 * 8}:0 years={len(text) // 19}:0 "
            f"counts={len(text) // 19}:0 widths={len(text) // 6}:0\n")


def instructions(driver, text):
    """Of the read call and all below it."""
    with tempfile.TemporaryDirectory() as folder:
        profile = str(Path(folder) / "profile")
        run = subprocess.run([VALGRIND[0], "--tool=callgrind", "-q", "--toggle-collect=walzhik_tucson_read",
                              f"--callgrind-out-file={profile}", driver],
                             input=call_of(text), capture_output=True, check=True, text=True)
        report = subprocess.run(["callgrind_annotate", "--inclusive=yes", profile],
                                capture_output=True, check=True, text=True).stdout
    number = int(run.stdout.partition(",")[2].partition(",")[0])
    counts = [int(count.replace(",", "")) for count in CALL.findall(report)]
    return max(counts, default=0) if number == 0 else 0


def main():
    failures = 0
    for name, (widths, closing) in TEXTS.items():
        costs = []
        for least in (SMALL, LARGE):
            text = text_of(widths, closing, least)
            costs.append(instructions(sys.argv[1], text) / len(text))
            print(f"  {name:13} {len(text):9,} bytes  {costs[-1]:6.1f} instructions a byte")
        if not 0 < costs[1] <= MOST_RATIO * costs[0]:
            print(f"failed: {name}")
            failures += 1
    print(f"reading_cost: {len(TEXTS)} texts, {failures} failed")
    return 1 if failures else 0


if __name__ == "__main__":
    sys.exit(main())
