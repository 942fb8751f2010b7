"""What the pictures of the report's page show, as numbers of a drawing: some series with their curves, taken from the
tables that were written, and the histogram of lengths. The page's template makes SVG of them.
"""

from __future__ import annotations

from collections import Counter
from collections.abc import Iterator, Sequence
from pathlib import Path
from typing import NamedTuple

from ..csvtext import quoted_field
from .inputs import shown, stem
from .places import INDICES

WIDTH, HEIGHT, MARGIN = 260, 110, 14
BARS_WIDTH, BARS_HEIGHT, MOST_BARS = 760, 220, 24
LEFT = 44  # of the bars, for the numbers beside them
STEPS = (1, 2, 5)
Points = list[tuple[float, float]]


class Picture(NamedTuple):
    """A series in a drawing: its measured rings as a thin line, absent ones left out, and its curve as a thick one."""

    path: str
    name: str
    first: int
    last: int
    top: float
    widths: Points
    curve: Points


class Bar(NamedTuple):
    """A bar of the histogram."""

    x: float
    y: float
    wide: float
    tall: float
    words: str
    label: str


def pictures(path: str, names: Sequence[str], output: Path) -> Iterator[Picture]:
    """Pictures of series of one input, from its table of indices; a run that writes Tucson texts has none.

    Raises
    ------
    OSError
        If the table can't be read.
    """
    table = output / f"{stem(path)}{INDICES}csv"
    if not table.exists():
        return
    data = table.read_bytes()
    for name in names:
        rows = [row.rsplit(b",", 4)[1:4] for row in lines_of(data, name)]
        if rows:
            yield drawn(path, name, [(int(year), float(width), float(value)) for year, width, value in rows])


def lines_of(data: bytes, name: str) -> list[bytes]:
    """The lines of a series in a table of indices, where they stand together.

    Examples
    --------
    >>> lines_of(b"series,year\\nA,1\\nAB,1\\nAB,2\\nB,1\\n", "AB")
    [b'AB,1', b'AB,2']
    """
    begin = b"\n" + quoted_field(name).encode("ascii") + b","
    place = data.find(begin)
    found = []
    while place >= 0 and data.startswith(begin, place):
        end = data.find(b"\n", place + 1)
        found.append(data[place + 1 : end])
        place = end
    return found


def drawn(path: str, name: str, rings: Sequence[tuple[int, float, float]]) -> Picture:
    """The picture of a series from its years, widths and values in millimetres."""
    top = max(max(width, value) for _, width, value in rings) or 1.0
    step = (WIDTH - 2 * MARGIN) / max(1, len(rings) - 1)

    def point(place: int, height: float) -> tuple[float, float]:
        return round(MARGIN + place * step, 1), round(HEIGHT - MARGIN - height / top * (HEIGHT - 2 * MARGIN), 1)

    widths = [point(place, width) for place, (_, width, _) in enumerate(rings) if width > 0]
    curve = [point(place, value) for place, (_, _, value) in enumerate(rings)]
    return Picture(shown(path), name, rings[0][0], rings[-1][0], top, widths, curve)


def bins(lengths: Counter[int]) -> list[tuple[int, int, int]]:
    """Lengths in groups of one width, a round number: first and last length, and how many series have one of them.

    Examples
    --------
    >>> bins(Counter({3: 2, 40: 1, 101: 5}))[0], len(bins(Counter({3: 2, 40: 1, 101: 5})))
    ((0, 4, 2), 21)
    """
    step, at = 1, 0
    while max(lengths) // step >= MOST_BARS:
        at += 1
        step = STEPS[at % len(STEPS)] * 10 ** (at // len(STEPS))
    held: Counter[int] = Counter()
    for length, count in lengths.items():
        held[length // step] += count
    return [(step * place, step * (place + 1) - 1, held[place]) for place in range(min(held), max(held) + 1)]


def bars(lengths: Counter[int]) -> list[Bar]:
    """How many series have how many rings, as bars."""
    groups = bins(lengths)
    most = max(count for _, _, count in groups)
    wide = (BARS_WIDTH - LEFT) / len(groups)
    high = BARS_HEIGHT - 3 * MARGIN
    every = max(1, len(groups) // (MOST_BARS // 2))
    made = []
    for place, (first, last, count) in enumerate(groups):
        tall = count / most * high
        told = f"{first:,} rings" if first == last else f"{first:,} to {last:,} rings"
        x, y = round(LEFT + place * wide + 1, 1), round(BARS_HEIGHT - 2 * MARGIN - tall, 1)
        label = f"{first:,}" if place % every == 0 else ""
        made.append(Bar(x, y, round(wide - 2, 1), round(tall, 1), f"{told}: {count:,} series", label))
    return made
