"""What the tests of the commands share: the examples that they work on, sheets and Tucson files of their own, and
tables."""

from __future__ import annotations

import csv
import io
from pathlib import Path

from walzhik import tucson
from walzhik.sheet import Sheet
from walzhik.tucson import Series

OAK = "examples/tucson/oak.rwl"
ROOF = "examples/sheets/roof.sheet"
GROWTH = "examples/sheets/growth.sheet"
PARTS = ("--earlywood", "ROOF04E", "--latewood", "ROOF04L")
REFUSED, UNUSABLE = 1, 2


def table(text: str) -> list[dict[str, str]]:
    """The lines of a CSV text by its header."""
    return list(csv.DictReader(io.StringIO(text)))


def line_sheet(folder: Path, breaks: list[int], pairs: list[tuple[int, int]], name: str = "a.sheet") -> Path:
    """A sheet of one straight stretch."""
    path = folder / name
    path.write_bytes(Sheet(breaks, [1], [], pairs).text())
    return path


def rwl(folder: Path, *series: Series, name: str = "a.rwl") -> Path:
    """A Tucson file."""
    path = folder / name
    path.write_bytes(tucson.write(series))
    return path
