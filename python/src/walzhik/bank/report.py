"""The report of a run as a table, and the figures that its page shows. Both are made record by record: nothing is held
but counts, and a few lines to show.
"""

from __future__ import annotations

import heapq
import random
import re
from collections import Counter
from collections.abc import Iterable
from typing import IO, NamedTuple

from ..csvtext import quoted_field
from .inputs import shown
from .records import PARTS, Record, Row

HEADER = "file,series,first,last,rings,n,shape,deviation_mm,explained,number,refusal,changes,seconds\n"
SHOWN_REFUSALS, SHOWN_SLOWEST, SHOWN_PICTURES, MOST_REASONS = 200, 10, 12, 500
OTHER = "Other reasons"


class Told(NamedTuple):
    """A refusal as the page shows it."""

    path: str
    series: str
    words: str


class Slow(NamedTuple):
    """A file by how long it took."""

    seconds: float
    path: str
    series: int


class Summary:
    """The figures of a run.

    Attributes
    ----------
    files, refused_files, unread_files : int
        All; those of which nothing was worked out; those of these whose bytes couldn't be had.
    kept_files, cleared_files, gone_files : int
        Those that an earlier run did; those refused of which an earlier run's outputs were taken away; those of which
        only outputs are there.
    pruned : int
        How many outputs were taken away that no record names.
    series, refused_series, rings : int
    scarred_series : int
        Those whose fitted curve has several parts.
    changed_files : int
        Those of which something was noted or changed when they were read.
    lengths : Counter
        How many series have so many rings.
    reasons : Counter
        How often a refusal of a kind came.
    refusals : list of Told
        The first ones.
    slowest : list of Slow
    pictures : list of (path, series)
        Some series that went well, chosen by a seeded draw.
    """

    def __init__(self) -> None:
        self.files = self.refused_files = self.unread_files = self.changed_files = 0
        self.kept_files = self.cleared_files = self.gone_files = self.pruned = 0
        self.series = self.refused_series = self.scarred_series = self.rings = 0
        self.lengths: Counter[int] = Counter()
        self.reasons: Counter[str] = Counter()
        self.refusals: list[Told] = []
        self.slowest: list[Slow] = []
        self.pictures: list[tuple[str, str]] = []
        self._draw = random.Random(0)

    def add(self, record: Record) -> None:
        """Count a record."""
        self.files += 1
        self.refused_files += bool(record.refusal)
        self.unread_files += not record.digest
        self.changed_files += bool(record.changes)
        if record.refusal:
            self._refuse(Told(shown(record.path), "", record.refusal))
        if record.seconds is not None:
            slow = Slow(record.seconds, shown(record.path), len(record.rows))
            self.slowest = heapq.nlargest(SHOWN_SLOWEST, [*self.slowest, slow])
        for row in record.rows:
            self._add_row(record.path, row)

    def _add_row(self, path: str, row: Row) -> None:
        self.series += 1
        self.lengths[row.rings] += 1
        if row.refusal:
            self.refused_series += 1
            self._refuse(Told(shown(path), row.name, row.refusal))
            return
        self.rings += row.rings
        self.scarred_series += PARTS in row.shape
        place = self._draw.randrange(self.series - self.refused_series)
        if len(self.pictures) < SHOWN_PICTURES:
            self.pictures.append((path, row.name))
        elif place < SHOWN_PICTURES:
            self.pictures[place] = (path, row.name)

    def _refuse(self, told: Told) -> None:
        reason = kind(told.words)
        self.reasons[reason if reason in self.reasons or len(self.reasons) < MOST_REASONS else OTHER] += 1
        if len(self.refusals) < SHOWN_REFUSALS:
            self.refusals.append(told)

    @property
    def refused(self) -> int:
        """How many refusals there are, of files and of series."""
        return self.refused_files + self.refused_series

    def slowest_rows(self) -> list[tuple[str, str, str]]:
        """The files that took longest, as the page shows them."""
        return [(f"{seconds:.3f}", f"{series:,}", path) for seconds, path, series in self.slowest]

    def reason_rows(self) -> list[tuple[str, str]]:
        """The kinds of refusals by how often they came, as the page shows them."""
        return [(f"{count:,}", words) for words, count in self.reasons.most_common()]

    def asides(self) -> list[str]:
        """What was done with outputs of inputs that are refused or gone, in words."""
        said = []
        if self.cleared_files:
            said.append(f"Outputs of earlier runs were taken away of {counted(self.cleared_files, 'refused file')}.")
        if self.gone_files:
            said.append(
                f"Inputs that are there no more: {self.gone_files:,}. Their outputs stand; --prune removes them."
            )
        if self.pruned:
            said.append(f"{counted(self.pruned, 'output')} of no input {was(self.pruned).split()[-1]} taken away.")
        return said

    def words(self) -> str:
        """What the run came to, in a sentence or two.

        Examples
        --------
        >>> summary = Summary()
        >>> summary.add(Record("a.rwl", "1f", rows=[Row("A", 30, 4, ""), Row("B", 1, None, "Too short.")]))
        >>> summary.words()
        '1 file: 1 of 2 series went well, 1 was refused.'
        """
        well = self.series - self.refused_series
        said = f"{counted(self.files, 'file')}: {well:,} of {self.series:,} series went well"
        said += f", {was(self.refused_series)} refused." if self.refused_series else "."
        if self.refused_files:
            said += f" Of {counted(self.refused_files, 'file')} nothing was worked out."
        if self.kept_files:
            said += f" {was(self.kept_files).capitalize()} done before."
        return said


def counted(count: int, thing: str) -> str:
    return f"{count:,} {thing}" + ("" if count == 1 else "s")


def was(count: int) -> str:
    return f"{count:,} was" if count == 1 else f"{count:,} were"


def kind(words: str) -> str:
    """What refusals of one kind share: the first sentence without names and numbers.

    Examples
    --------
    >>> kind("Series A: no fit. It has 1 ring: a curve needs at least 2.")
    'Series ..: no fit. It has .. ring: a curve needs at least ...'
    >>> kind("refused, no=12,2. Line 2 starts in 1860, but the next year of series 'ROOF05  ' is 1850. Find the missing ..")
    'Line .. starts in .., but the next year of series .. is ...'
    """
    plain = re.sub(r"^refused, no=[0-9]+,[0-9]+[.] ", "", words)
    plain = re.sub(r"^Series .*?: ", "Series ..: ", plain)
    plain = re.sub(r"'[^']*'", "..", plain)
    plain = re.sub(r"(?<![A-Za-z0-9])-?[0-9][0-9,.]*(?<![,.])", "..", plain)
    sentences = re.split(r"(?<=[a-z.][.]) (?=[A-Z])", plain)
    return " ".join(sentences[: 2 if len(sentences[0]) <= len("Series ..: no template.") else 1])


def write(records: Iterable[Record], file: IO[bytes]) -> Summary:
    """Write the table: a line a file, with what concerns all of it, then a line a series in order of name.

    Returns
    -------
    Summary
        The figures of what was written.
    """
    summary = Summary()
    file.write(HEADER.encode("ascii"))
    for record in records:
        summary.add(record)
        file.write(rows_of(record).encode("utf-8"))
    return summary


def rows_of(record: Record) -> str:
    """A record's lines of the table.

    Examples
    --------
    >>> row = Row("A", 30, 4, "", 1900, "falling", 0.25, 0.5, seconds=0.002)
    >>> print(rows_of(Record("a.rwl", rows=[row], changes=["Line 1: tabs."], seconds=0.01)), end="")
    a.rwl,,1900,1929,30,,,,,,,Line 1: tabs.,0.0100
    a.rwl,A,1900,1929,30,4,falling,0.25,0.5,,,,0.0020
    """
    path = quoted_field(shown(record.path))
    firsts = [row.first for row in record.rows if row.first is not None]
    lasts = [row.first + row.rings - 1 for row in record.rows if row.first is not None]
    rings = sum([row.rings for row in record.rows])
    changes = " ".join(record.changes)
    span = (min(firsts, default=None), max(lasts, default=None))
    refusal = quoted_field(record.refusal)
    lines = [
        f"{path},,{whole(span[0])},{whole(span[1])},{rings},,,,,{whole(record.number)},{refusal},"
        f"{quoted_field(changes)},{seconds(record.seconds)}\n"
    ]
    for row in record.rows:
        fit = f"{whole(row.n)},{quoted_field(row.shape)},{decimal(row.deviation)},{decimal(row.explained)}"
        lines.append(
            f"{path},{quoted_field(row.name)},{whole(row.first)},{whole(row.last)},{row.rings},{fit},"
            f"{whole(row.number)},{quoted_field(row.refusal)},,{seconds(row.seconds)}\n"
        )
    return "".join(lines)


def whole(value: int | None) -> str:
    """A whole number as a field of the table."""
    return "" if value is None else str(value)


def decimal(value: float | None) -> str:
    """A number as a field of the table, without an exponent.

    Examples
    --------
    >>> decimal(0.00001), decimal(2.0), decimal(-1e-9), decimal(None)
    ('0.00001', '2', '0', '')
    """
    return "" if value is None else f"{value:z.6f}".rstrip("0").rstrip(".")


def seconds(value: float | None) -> str:
    """Seconds as a field of the table."""
    return "" if value is None else f"{value:.4f}"
