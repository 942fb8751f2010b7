"""Cases of laboratories' files with what the call answers, and short files against the buffers that are said to be enough.

usage: clean_cases.py DRIVER

The driver for Tucson files cleans each file of the table into buffers of 2 n
bytes, n / 10 lines and 2 n + 4 cells of notes, n its bytes. Then all files of up
to MOST_BYTES bytes of a few kinds, with every header of up to three lines, are
cleaned into the same buffers: none of them may be refused for a short buffer.
"""

import itertools
import subprocess
import sys

NO_HEADER = 100
KINDS = b"x\t\r\n \x1a"
MOST_BYTES = 5
TEN = "OAK     1890" + "".join(f"{width:6}" for width in range(1, 11))
CLOSED = "OAK     1900   999\n"
DATA = "".join(f"OAK 01 {k} 850    12    13    14   999 A\n" for k in range(1, 5))

# a file, the unit that is said, number and place, and the notes of an answer
CASES = [
    ("OAK01\t1895   812\t   655 -9999\n", 0, (11, 1), []),
    ("OAK     1895    81    79    65   999\nOAK     1910   820   700 -9999\n", 0, (12, 2), []),
    (DATA, 0, (11, 1), []),
    ("OAK01A\t12\t1920\t128\t130\t-9999\n", 0, (11, 1), []),
    ("ABC01  11895   812 -9999\n", 0, (23, 1), []),
    ("ABC012-11895   812 -9999\n", 0, (23, 1), []),
    ("ABC01  \u22121012   812 -9999\n", 0, (23, 1), []),
    ("FJ -725 1483 -9999\n", 0, (23, 1), []),
    ("OAK     1895    81    79    65    90   999\nOAK     1900   812   702 -9999\n", 0, (0, 0), [(13, 1)]),
    ("OAK     1890   700   701     0     0   999\n", 0, (0, 0), [(12, 1)]),
    ("OAKA    1890   700 -9999\nOAKB    1890   701   999\nOAKC    1890   702 -9999\n", 0, (0, 0), [(14, 2)]),
    (TEN + " CO523\n" + CLOSED, 0, (0, 0), [(7, 1)]),
    (TEN + "   709\n" + CLOSED, 0, (11, 1), []),
    (TEN + " BC\n" + CLOSED, 0, (11, 1), []),
    ("OAK\t1890   700   701 -9999\n", 0, (0, 0), [(4, 1)]),
    ("OAK     1890   700  -999\n", 0, (24, 1), []),
    ("OAK     1890   700  -999\n", 100, (0, 0), [(11, 1)]),
    ("OAK     1890   700   999\n", 1000, (24, 1), []),
    ("OAK     1890   999   999\n", 0, (25, 1), []),
]


def call_line(text, header, unit):
    size = len(text)
    return f"clean text={','.join(map(str, text))} header={header} unit={unit} out={2 * size}:0 lines={size // 10}:0 notes={2 * size + 4}:0\n"


def replies(driver, calls):
    run = subprocess.run([driver], input="".join(calls), capture_output=True, check=True, text=True)
    lines = [[word.split("=") for word in line.split()] for line in run.stdout.splitlines()]
    return [({name: int(value) for name, value in words[:5]}, dict(words[5:])) for words in lines]


def notes_of(count, cells):
    """The notes of a buffer whose cell i held i."""
    held = dict(enumerate(range(2 * count)))
    if cells != "same":
        held.update(tuple(map(int, cell.split(":"))) for cell in cells.split(","))
    return [(held[2 * note], held[2 * note + 1]) for note in range(count)]


def failing_cases(driver):
    calls = [call_line(text.encode(), NO_HEADER, unit) for text, unit, _, _ in CASES]
    for case, (counts, buffers) in zip(CASES, replies(driver, calls), strict=True):
        answer = ((counts["number"], counts["place"]), notes_of(counts["notes"], buffers["notes"]))
        if answer != case[2:]:
            print(f"failed: {case[0]!r}, unit {case[1]}: {answer}")
            yield case


def short_files(driver):
    """How many short files are tried, and how many of them are refused for a buffer."""
    files = [bytes(file) for size in range(MOST_BYTES + 1) for file in itertools.product(KINDS, repeat=size)]
    tried = [(file, header) for file in files for header in (0, 1, 2, 3, NO_HEADER)]
    found = replies(driver, [call_line(file, header, 0) for file, header in tried])
    refused = [call for call, (counts, _) in zip(tried, found, strict=True) if counts["number"] == 1]
    for file, header in refused[:3]:
        print(f"failed: a buffer is too short for {file!r}, header {header}")
    return len(tried), len(refused)


def main():
    failed = len(list(failing_cases(sys.argv[1])))
    tried, refused = short_files(sys.argv[1])
    print(f"clean_cases: {len(CASES)} cases, {failed} failed; {tried} short files, {refused} failed")
    return 1 if failed or refused else 0


if __name__ == "__main__":
    sys.exit(main())
