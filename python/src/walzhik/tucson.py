"""Tucson decadal files: a laboratory's file in the strict form, reading and writing, each by a proved call of the engine.
"""

from __future__ import annotations

import os
from collections.abc import Iterable, Iterator, Sequence
from dataclasses import dataclass
from pathlib import Path
from typing import TYPE_CHECKING, Literal, NamedTuple

import numpy as np

from ._engine import NO_HEADER, NO_UNIT, library, listed, pointer, whole, wholes
from .limits import BAD_LINE, FIELD_COLUMNS, HEAD, NAME_COLUMNS, PER_MM, TAB
from .notes import Note
from .words import file as file_words, series as series_words, strict as strict_words

if TYPE_CHECKING:
    import pandas
    from numpy.typing import NDArray

    from ._engine import Wholes

Unit = Literal["hundredths", "thousandths"]
UNITS = {"hundredths": 100, "thousandths": 1000}  # as the call has them: parts of a millimetre
LEAST_SERIES_BYTES = HEAD + FIELD_COLUMNS + 1  # one line with one field and its end
MORE_BYTES = TAB - 1  # that a tab may become


@dataclass(eq=False)
class Series:
    """A series of ring widths.

    Parameters
    ----------
    name : str
        At most 8 characters, without the blanks at its end.
    first : int
        The year of the first width.
    widths : ndarray of int32
        Thousandths of a millimetre, of consecutive years; 0 is an absent ring.

    Examples
    --------
    >>> series = Series("FEW", 1998, [12, 9, 7])
    >>> len(series), series.last
    (3, 2000)
    """

    name: str
    first: int
    widths: Wholes

    def __len__(self) -> int:
        return len(self.widths)

    def __eq__(self, other: object) -> bool:
        """Whether name, first year and all widths are the same."""
        if not isinstance(other, Series):
            return NotImplemented
        return (self.name, self.first) == (other.name, other.first) and np.array_equal(self.widths, other.widths)

    @property
    def last(self) -> int:
        """The year of the last width."""
        return self.first + len(self.widths) - 1

    @property
    def columns(self) -> bytes:
        """The name as it stands in a file, in 8 columns."""
        return self.name.encode("utf-8").ljust(NAME_COLUMNS)


def read_strict(text: bytes) -> list[Series]:
    """The series of a text in the strict form, by the proved reader.

    Raises
    ------
    Refused
        With number 11, 12 or 13 and the line.

    Examples
    --------
    >>> read_strict(b"FEW     1998    12     9\\nFEW     2000     7 -9999\\n")
    [Series(name='FEW', first=1998, widths=array([12,  9,  7], dtype=int32))]
    """
    most, fields = len(text) // LEAST_SERIES_BYTES, len(text) // FIELD_COLUMNS
    names = np.empty(NAME_COLUMNS * most, dtype=np.uint8)
    years, counts = np.empty(most, dtype=np.int32), np.empty(most, dtype=np.uint32)
    widths = np.empty(fields, dtype=np.int32)
    reply = library.walzhik_tucson_read(
        pointer(np.frombuffer(text, dtype=np.uint8), "uint8_t[]"),
        len(text),
        pointer(names, "uint8_t[]"),
        names.size,
        pointer(years),
        most,
        pointer(counts, "uint32_t[]"),
        most,
        pointer(widths),
        fields,
    )
    if reply.number:
        raise strict_words.refused(text, reply.number, reply.place)
    return list(_series(names, years, counts[: reply.count], widths))


def _series(
    names: NDArray[np.uint8], years: NDArray[np.int32], counts: NDArray[np.uint32], widths: NDArray[np.int32]
) -> Iterator[Series]:
    """The series of the reader's four lists; their widths are views of one array."""
    ends = np.cumsum(counts, dtype=np.int64)
    kept = widths[: ends[-1] if len(ends) else 0].copy()
    columns = names.tobytes()
    for place, (year, count, end) in enumerate(zip(years.tolist(), counts.tolist(), ends.tolist())):
        name = columns[NAME_COLUMNS * place : NAME_COLUMNS * (place + 1)].decode("ascii").rstrip(" ")
        yield Series(name, year, kept[end - count : end])


class Cleaned(NamedTuple):
    """What `clean` gives.

    Attributes
    ----------
    text : bytes
        The strict text, which the proved reader accepts.
    lines : tuple of int
        For each line of `text` its line in the file, from 1.
    notes : tuple of Note
        What was changed, left out, or is to be looked at, by rising line; `walzhik.notes` has the words.
    """

    text: bytes
    lines: tuple[int, ...]
    notes: tuple[Note, ...]


def clean(text: bytes, header: int | None = None, unit: Unit | None = None) -> Cleaned:
    r"""A laboratory's text in the strict form, by the proved call: its lines as an editor shows them.

    Parameters
    ----------
    text : bytes
        The file.
    header : int, optional
        How many lines its header has, 0 to 99. Without it only the data bank's three header lines are taken for one.
    unit : {"hundredths", "thousandths"}, optional
        What widths closed by -999 are; without it such a series is refused.

    Raises
    ------
    Refused
        With number 11, 12, 13 or 21 to 26 and the line of the file.
    TypeError, ValueError
        If the text is no bytes, the header no whole number, or there is no such unit.

    Examples
    --------
    >>> made = clean(b"FEW     1998    12     9  \nFEW     2000     7 -9999")
    >>> made.text, made.lines
    (b'FEW     1998    12     9\nFEW     2000     7 -9999\n', (1, 2))
    >>> made.notes
    (Note(number=5, line=1), Note(number=8, line=2))
    """
    if not isinstance(text, (bytes, bytearray)):
        raise TypeError(f"text: the file's bytes are needed, not {type(text).__name__}")
    if unit is not None and unit not in UNITS:
        raise ValueError(f"unit: hundredths or thousandths is needed, not {unit!r}")
    ends = text.count(b"\n") + 1
    made = np.empty(len(text) + MORE_BYTES * text.count(b"\t") + 1, dtype=np.uint8)
    lines, notes = np.empty(ends, dtype=np.uintp), np.empty((len(text) + 2, 2), dtype=np.uintp)
    reply = library.walzhik_tucson_clean(
        pointer(np.frombuffer(text, dtype=np.uint8), "uint8_t[]"),
        len(text),
        _header_lines(header),
        NO_UNIT if unit is None else UNITS[unit],
        pointer(made, "uint8_t[]"),
        made.size,
        pointer(lines, "size_t[]"),
        lines.size,
        pointer(notes, "size_t[]"),
        notes.size,
    )
    if reply.number:
        raise file_words.refused(file_words.Given(text, header, unit), reply.number, reply.place)
    strict = made[: reply.bytes].tobytes()
    del made  # before the lists of a large file are made
    found = map(Note, *notes[: reply.notes].T.tolist()) if reply.notes else ()
    return Cleaned(strict, tuple(lines[: reply.lines].tolist()), tuple(found))


def _header_lines(header: int | None) -> int:
    """How many lines of a header are named, as the call has it: what it has no number for becomes one that it refuses."""
    if header is None:
        return NO_HEADER
    lines = whole(header, "header")
    return lines if 0 <= lines < NO_HEADER else NO_HEADER + 1


def read(
    source: bytes | str | os.PathLike[str], *, strict: bool = False, header: int | None = None, unit: Unit | None = None
) -> list[Series]:
    """The series of a Tucson file.

    Parameters
    ----------
    source : bytes, or a path
        The file's bytes or where it is.
    strict : bool
        Whether the text must be in the strict form as it is; otherwise `clean` brings it into that form first.
    header : int, optional
        How many lines its header has, for `clean`.
    unit : {"hundredths", "thousandths"}, optional
        What widths closed by -999 are, for `clean`.

    Raises
    ------
    Refused
        If a proved call refuses the text.
    ValueError
        If a header or a unit is named for a strict text, which would do nothing.

    Examples
    --------
    >>> [series] = read(b"FEW     1998    12     9\\nFEW     2000     7 -9999\\n", strict=True)
    >>> series.name, series.first, series.widths.tolist()
    ('FEW', 1998, [12, 9, 7])
    """
    if strict and (header is not None or unit is not None):
        raise ValueError("a strict text is taken as it is: header and unit go without strict")
    text = source if isinstance(source, bytes) else Path(source).read_bytes()
    return read_strict(text if strict else clean(text, header, unit).text)


def write(series: Iterable[Series]) -> bytes:
    """Series as a Tucson text, in thousandths, by the proved writer.

    Raises
    ------
    Refused
        With number 11 and the series, counted from 0, that the form can't hold.

    Examples
    --------
    >>> print(write([Series("FEW", 1998, [12, 9, 7])]).decode(), end="")
    FEW     1998    12     9
    FEW     2000     7 -9999
    """
    given = list(series)
    for place, each in enumerate(given):
        if len(each.columns) != NAME_COLUMNS:  # the call takes 8 bytes a name, so a longer one can't be put to it
            raise series_words.refused(given, BAD_LINE, place)
    names = np.frombuffer(b"".join(each.columns for each in given), dtype=np.uint8)
    years = wholes([each.first for each in given], "first")
    counts = np.array([len(each) for each in given], dtype=np.uint32)
    lists = [listed(each.widths, "widths") for each in given]
    widths = np.concatenate(lists) if lists else np.zeros(0, dtype=np.int32)
    text = np.empty(_most_bytes(given), dtype=np.uint8)
    reply = library.walzhik_tucson_write(
        pointer(names, "uint8_t[]"),
        names.size,
        pointer(years),
        years.size,
        pointer(counts, "uint32_t[]"),
        counts.size,
        pointer(widths),
        widths.size,
        pointer(text, "uint8_t[]"),
        text.size,
    )
    if reply.number:
        raise series_words.refused(given, reply.number, reply.place)
    return text[: reply.count].tobytes()


def _most_bytes(given: Sequence[Series]) -> int:
    """Room for the text: a field of each width and closing, and a line for each, as if each stood alone."""
    return sum((len(each) + 1) * LEAST_SERIES_BYTES for each in given)


def to_frame(series: Iterable[Series]) -> pandas.DataFrame:
    """Series as a pandas data frame: a row a year, a column a series, millimetres; missing outside a series.

    Two series of one name are refused, as a data frame would mix them up. It needs pandas, which nothing else here
    does.

    Examples
    --------
    >>> frame = to_frame([Series("A", 1998, [12, 0]), Series("B", 1999, [7])])
    >>> frame.loc[1998, "A"], frame.loc[1999, "B"]
    (0.012, 0.007)
    """
    import pandas

    columns: dict[str, pandas.Series[float]] = {}
    for each in series:
        if each.name in columns:
            raise ValueError(f"Two series are named {each.name}: a column of a data frame holds one.")
        years = range(each.first, each.first + len(each))
        columns[each.name] = pandas.Series(np.asarray(each.widths) / PER_MM, index=years, dtype=float)
    return pandas.DataFrame(columns)
