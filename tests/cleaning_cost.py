"""Counts the instructions of bringing laboratories' files of 20 kB and of 200 kB into the strict form.

usage: cleaning_cost.py DRIVER

The driver for Tucson files takes each text under valgrind's callgrind, and the
instructions of a call, the work below it included, are counted. A file of ten
times as many bytes takes `walzhik_tucson_clean` at most MOST_GROWTH times as
many instructions, whatever stands in it; a strict text takes it at most so many
times as many as `walzhik_tucson_read` takes for the same text as STRICT says.
"""

import re
import subprocess
import sys
import tempfile
from pathlib import Path

from comparing import VALGRIND

from protocol import listed
from random_tucson import NAMES, closed_lines
from tucson import Series

SMALL, TIMES = 20_000, 10
MOST_GROWTH = 11
LONG, SHORT = tuple(range(990)), (7,)
# the widths and the closing of each series, and the most readings that cleaning takes
STRICT = {"thousandths": (LONG, -9_999, 1.5), "hundredths": (LONG, 999, 1.5), "short series": (SHORT, -9_999, 2)}
LINE = b"ABC01   1990    12    13 -9999"
OTHER = b"ABC02   1990    12    13 -9999"
NUMBER = re.compile(r"number=(\d+)|reply=\d+,(\d+)")


def strict(widths, closing, least):
    """Series of these widths, as many as fill so many bytes."""
    each = [b"".join(closed_lines(Series(name, -999, widths), closing)) for name in NAMES[:2]]
    return b"".join(each[place % 2] for place in range(least // len(each[0]) + 1))


def repeated(lines, least):
    """These lines again and again, up to so many bytes."""
    return lines * (least // len(lines) + 1)


def tabbed(least):
    """Lines with a tab for the blanks behind the name, and ends as Windows has them."""
    lines = (LINE + b"\n" + OTHER + b"\n").replace(b"   1990", b"\t1990").replace(b"\n", b" \r\n")
    return repeated(lines, least)


FILES = {
    "tabs and bytes 13": tabbed,
    "site names": lambda least: repeated(b"".join(name + b"1990" + b"    12" * 10 + b"    AB123\n" + name + b"2000   999\n"
                                                  for name in (b"ABC01   ", b"ABC02   ")), least),
    "bytes over 127": lambda least: repeated((LINE + b"\n" + OTHER + b"\n").replace(b"C", b"\xc3\x84"), least),
    "a line with trailing blanks": lambda least: LINE + b" " * least + b"\n",
    "a line with trailing tabs": lambda least: LINE + b"\t" * (least // 8) + b"\n",
    "a line of blanks": lambda least: b" " * least + b"\n" + LINE + b"\n",
    "blank lines": lambda least: b"\n" * least + LINE + b"\n",
    "a line of letters": lambda least: b"A" * least + b"\n",
    "a line of bytes over 127": lambda least: b"\xc3\x84" * (least // 2) + b"\n",
    "a long site name": lambda least: OTHER[:12] + b"    12" * 10 + b" " * least + b"AB123\n",
    "bytes 26": lambda least: LINE + b"\n" + b"\x1a" * least,
}


def clean_call(text):
    """With buffers that are long enough for every text of so many lines, as include/walzhik.h has them, or of so many bytes, if these are fewer."""
    lines, size = text.count(b"\n") + 2, len(text)
    return (f"clean text={listed(text)} header=100 unit=0 out={min(79 * lines, 8 * size)}:0 lines={min(lines, size)}:0 "
            f"notes={min(22 * lines + 4, 4 * size)}:0\n")


def read_call(text):
    return (f"read text={listed(text)} names={len(text) // 19 * 8}:0 years={len(text) // 19}:0 "
            f"counts={len(text) // 19}:0 widths={len(text) // 6}:0\n")


def counted(driver, name, line):
    """The number that a call ends with, and the instructions of it and all below it."""
    with tempfile.TemporaryDirectory() as folder:
        profile = str(Path(folder) / "profile")
        run = subprocess.run([VALGRIND[0], "--tool=callgrind", "-q", f"--toggle-collect={name}",
                              f"--callgrind-out-file={profile}", driver],
                             input=line, capture_output=True, check=True, text=True)
        report = subprocess.run(["callgrind_annotate", "--inclusive=yes", profile],
                                capture_output=True, check=True, text=True).stdout
    number = NUMBER.search(run.stdout)
    counts = re.findall(rf"^\s*([\d,]+) .*\b{name}\b", report, re.MULTILINE)
    return int(number[1] or number[2]), max((int(count.replace(",", "")) for count in counts), default=0)


def cleaning(driver, text):
    return counted(driver, "walzhik_tucson_clean", clean_call(text))


def reading(driver, text):
    return counted(driver, "walzhik_tucson_read", read_call(text))


def said(name, text, count):
    print(f"  {name:28} {len(text):9,} bytes  {count / len(text):6.1f} instructions a byte", flush=True)


def grows(driver, name, made):
    """Whether ten times as many bytes take at most so many times the instructions."""
    costs = []
    for least in (SMALL, TIMES * SMALL):
        text = made(least)
        costs.append(cleaning(driver, text)[1])
        said(name, text, costs[-1])
    return 0 < costs[0] and costs[1] <= MOST_GROWTH * costs[0]


def reads(driver, name, text, most):
    """Whether a strict text takes at most so many times the instructions of reading it."""
    number, clean = cleaning(driver, text)
    refused, read = reading(driver, text)
    said(name + ", read", text, read)
    print(f"  {'':28} {clean / max(read, 1):.2f} readings")
    return number == 0 and refused == 0 and 0 < clean <= most * read


def main():
    driver = sys.argv[1]
    failed = []
    for name, (widths, closing, most) in STRICT.items():
        if not grows(driver, name, lambda least, each=(widths, closing): strict(*each, least)):
            failed.append(f"growth, {name}")
        if not reads(driver, name, strict(widths, closing, SMALL), most):
            failed.append(f"readings, {name}")
    failed += [f"growth, {name}" for name, made in FILES.items() if not grows(driver, name, made)]
    for name in failed:
        print(f"failed: {name}")
    print(f"cleaning_cost: {2 * len(STRICT) + len(FILES)} limits, {len(failed)} failed")
    return 1 if failed else 0


if __name__ == "__main__":
    sys.exit(main())
