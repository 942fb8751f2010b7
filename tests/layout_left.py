"""What the port to today's Rattle left of the layout of proofs: files with more faults than a test of layout allows, and how many.

tests/layout_left.tsv has a row for each: the test, a file below the root and its number of faults. A file may have no more faults than its
row says; where it has fewer, the row has to say so, so that the list only gets shorter.
"""

from __future__ import annotations

from collections import Counter
from pathlib import Path

ROOT = Path(__file__).resolve().parent.parent
ROWS = ROOT / "tests" / "layout_left.tsv"


def left(test: str) -> dict[str, int]:
    """The files that a test's rows name, with their numbers."""
    rows = [line.split("\t") for line in ROWS.read_text(encoding="utf-8").splitlines()[1:]]
    return {path: int(count) for name, path, count in rows if name == test}


def beyond(test: str, faults: list[tuple[str, str]], allowed: dict[str, int] | None = None) -> list[str]:
    """The faults, each a file and what is said of it, of files that have more than their row says; and the rows that say too many."""
    rows = left(test) if allowed is None else allowed
    counts = Counter(path for path, _ in faults)
    found = [said for path, said in faults if counts[path] > rows.get(path, 0)]
    found += [
        f"tests/{ROWS.name}: {test}: {path} has {counts[path]} faults and not {count}: take the row down"
        for path, count in sorted(rows.items())
        if counts[path] < count
    ]
    return found
