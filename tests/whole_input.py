"""Checks that what reads standard input takes all of it or says that it could not.

usage: whole_input.py SHEET TUCSON RINGS RINGS_C TUCSON_C

The arguments are the programs sheet, tucson and rings and the examples rings.c and tucson.c. A failed read, at once or after part of a
text, must be said on standard error with the system's reason, with nothing on standard output: what came before it could pass
for a shorter text. Long texts must go through the examples whole.
"""

import argparse
import os
import subprocess
import sys
import tempfile
import termios
import tty
from collections.abc import Iterator
from pathlib import Path

ROOT = Path(__file__).resolve().parent.parent
FIRST_YEAR, RINGS, DECADE, WIDTH = 1891, 45, 10, 1000
RINGS_TEXT, TUCSON_TEXT = 70_000, 1_100_000


def series(number: int) -> str:
    """A series of rings of one width, as Tucson lines in thousandths."""
    fields = [(FIRST_YEAR + ring, f"{WIDTH:6}") for ring in range(RINGS)] + [(FIRST_YEAR + RINGS, " -9999")]
    lines: dict[int, list[str]] = {}
    for year, field in fields:
        lines.setdefault(max(FIRST_YEAR, year - year % DECADE), []).append(field)
    return "".join(f"A{number:07}{year:4}{''.join(line)}\n" for year, line in lines.items())


def long_text(least: int) -> tuple[str, int]:
    """A text of at least so many bytes, and how many series it has."""
    count = least // len(series(0)) + 1
    return "".join(map(series, range(count))), count


def ran(program: Path, source: int) -> tuple[int, bytes, bytes]:
    """How a program ends on a descriptor as its standard input, and what it wrote."""
    done = subprocess.run([program], stdin=source, capture_output=True, check=False)
    return done.returncode, done.stdout, done.stderr


def on_directory(program: Path) -> tuple[int, bytes, bytes]:
    """On a directory, which opens and can't be read."""
    source = os.open(ROOT, os.O_RDONLY)
    try:
        return ran(program, source)
    finally:
        os.close(source)


def on_broken_off(program: Path, text: bytes) -> tuple[int, bytes, bytes]:
    """On a terminal whose other end closes after the text: its next read fails."""
    source, other = os.openpty()
    try:
        tty.setraw(other, termios.TCSANOW)
        os.write(other, text)
    finally:
        os.close(other)
    try:
        return ran(program, source)
    finally:
        os.close(source)


def on_text(program: Path, text: str) -> tuple[int, bytes, bytes]:
    """On a file that holds the text."""
    with tempfile.TemporaryFile() as source:
        source.write(text.encode())
        source.seek(0)
        return ran(program, source.fileno())


def failed_reads(program: Path, status: int, whole: bytes) -> Iterator[str]:
    """What is wrong where a read fails; the program ends with this status, and would accept the text."""
    for name, found in (("a directory", on_directory(program)), ("a broken-off text", on_broken_off(program, whole))):
        ended, out, said = found
        if ended != status or out or not said.startswith(b"read: ") or said.count(b"\n") != 1:
            yield f"{program.name} on {name}: status {ended}, output {out[:60]!r}, said {said!r}"


def long_texts(rings: Path, tucson: Path) -> Iterator[str]:
    """What is wrong with the examples on long texts."""
    text, count = long_text(RINGS_TEXT)
    ended, out, said = on_text(rings, text)
    lines = out.decode().splitlines()
    if (
        ended != 0
        or said
        or len(lines) != count * RINGS
        or lines[:RINGS] != [line.replace(f"A{count - 1:07}", "A0000000") for line in lines[-RINGS:]]
    ):
        yield f"{rings.name} on {len(text)} bytes: status {ended}, {len(lines)} of {count * RINGS} lines, said {said!r}"
    text, count = long_text(TUCSON_TEXT)
    ended, out, said = on_text(tucson, text)
    head = "".join(f"A{number:07},{FIRST_YEAR},{RINGS}\n" for number in range(count))
    if ended != 0 or said or out.decode() != head + text:
        yield f"{tucson.name} on {len(text)} bytes: status {ended}, said {said!r}, other than these series and this text"


def main() -> int:
    parser = argparse.ArgumentParser(description="check that standard input is taken whole")
    for name in ("sheet", "tucson", "rings", "rings_c", "tucson_c"):
        parser.add_argument(name, type=Path)
    chosen = parser.parse_args()
    sheet = (ROOT / "examples" / "sheets" / "w1.sheet").read_bytes()
    table = (ROOT / "examples" / "rings" / "roof.txt").read_bytes()
    found = [
        *failed_reads(chosen.sheet, 0, sheet),
        *failed_reads(chosen.tucson, 0, series(0).encode()),
        *failed_reads(chosen.rings, 0, table),
        *failed_reads(chosen.rings_c, 1, series(0).encode()),
        *failed_reads(chosen.tucson_c, 1, series(0).encode()),
        *long_texts(chosen.rings_c, chosen.tucson_c),
    ]
    for fault in found:
        print(f"whole input: {fault}")
    if not found:
        print("whole input: 10 failed reads are said, two long texts go through whole")
    return 1 if found else 0


if __name__ == "__main__":
    sys.exit(main())
