"""Tables of ring widths (CSV and TSV): a front that makes series of a text, and a writer. A header line has the names, the first
column the year, a row a year.

Nothing here is proved. It refuses what it can't place, and hands its series to `walzhik.widths`, which has them written and read by
the engine before anything uses them.
"""

from __future__ import annotations

import csv
import io
from collections.abc import Sequence
from typing import NamedTuple

from ._changes import Changes, Unreadable
from ._front_parts import YEAR, Asked, Drawn, Found, drawn, placed, thousandths, year_of
from ._text_lines import without_marks
from .limits import PER_MM
from .tucson import Series
from .words.quoting import quoted

SEPARATORS = (";", "\t", ",")
UNENDED = "no line end stands behind the last row; see that it is whole"
CONSECUTIVE = "Put a row for each year, by rising year; cells outside a series stay empty."


class Row(NamedTuple):
    """The cells of a row without outer blanks, and the line that it ends on."""

    line: int
    cells: list[str]


def draw(text: bytes, asked: Asked = Asked()) -> Drawn:
    r"""The series of a table, or `Unreadable` with the line. Unproved: the engine has to write and read them before they are used.

    >>> draw(b"year;A;B\n1998;1,23;\n1999;0;0,5\n").series  # doctest: +NORMALIZE_WHITESPACE
    [Series(name='A', first=1998, widths=array([1230,    0], dtype=int32)),
     Series(name='B', first=1999, widths=array([500], dtype=int32))]
    """
    changes = Changes()
    decoded = _decoded(without_marks(text, changes))
    separator = separator_of(decoded)
    header, *rows = _rows(decoded, separator, changes)
    if not decoded.endswith(("\n", "\r")):
        changes.add([header, *rows][-1].line, UNENDED)
    years = _years(rows, asked, changes)
    rows = _with_points(rows, separator)
    names = header.cells[1:]
    for row in rows:
        if len(row.cells) != len(header.cells):
            words = f"it has {len(row.cells)} cells, but the header has {len(header.cells)}."
            raise Unreadable(row.line, words, "Give every row a cell for each name, empty where there is no width.")
    found = [_series(header.line, name, at, rows, years, asked, changes) for at, name in enumerate(names, start=1)]
    return drawn(found, asked, changes)


def _decoded(text: bytes) -> str:
    """The text; where it is no UTF-8, a character for each byte."""
    try:
        return text.decode("utf-8")
    except UnicodeDecodeError:
        return text.decode("latin-1")


def _cells(text: str, separator: str) -> list[Row]:
    """The rows by the library's reader, strictly."""
    reader = csv.reader(io.StringIO(text, newline=""), delimiter=separator, strict=True)
    rows = []
    try:
        for cells in reader:
            rows.append(Row(reader.line_num, [cell.strip(" \t") for cell in cells]))
    except csv.Error as error:
        words = f"the table's quotation marks are not in order ({error})."
        raise Unreadable(max(reader.line_num, 1), words, "Save the table again as CSV.") from error
    return rows


def separator_of(text: str) -> str:
    """What stands between the cells, by the first line.

    Examples
    --------
    >>> separator_of("year;A,1;B"), separator_of("year,A"), separator_of("year\\tA,1")
    (';', ',', '\\t')
    """
    for place, line in enumerate(io.StringIO(text), start=1):
        if not line.strip():
            continue
        wrong: Unreadable | None = None
        for separator in SEPARATORS:
            try:
                first, *rest = next(row.cells for row in _cells(line, separator) if row.cells)
            except Unreadable as error:  # by this separator; that of the table may be another
                wrong = error
                continue
            if rest and not any(other in first for other in SEPARATORS):
                return separator
        if wrong is not None:
            raise Unreadable(place, wrong.words, wrong.remedy)
        words = "it is no header of a table: the year's column and the names, with commas, semicolons or tabs between."
        raise Unreadable(place, words, "Begin the table with a line such as year,NAME1,NAME2.")
    raise Unreadable(1, "the table is empty.", "Begin it with a line such as year,NAME1,NAME2.")


def _rows(text: str, separator: str, changes: Changes) -> list[Row]:
    """The header and the rows that are not empty."""
    kept = []
    for row in _cells(text, separator):
        if any(row.cells):
            kept.append(row)
        else:
            changes.add(row.line, "an empty row was left out")
    if not kept:
        raise Unreadable(1, "the table is empty.", "Begin it with a line such as year,NAME1,NAME2.")
    header = kept[0]
    if YEAR.fullmatch(header.cells[0]):
        words = f"the table begins with the year {header.cells[0]}, without a header."
        raise Unreadable(header.line, words, "Begin it with a line such as year,NAME1,NAME2.")
    for place, name in enumerate(header.cells[1:], start=2):
        if not name:
            words = f"column {place} has no name."
            raise Unreadable(header.line, words, "Name it, or take the column out.")
    if len(kept) == 1:
        raise Unreadable(header.line, "no rows follow the header.", CONSECUTIVE)
    return kept


def _years(rows: Sequence[Row], asked: Asked, changes: Changes) -> list[int]:
    """The years of the rows, which follow each other."""
    years: list[int] = []
    for row in rows:
        said = year_of(row.cells[0], "the year", row.line)
        year = placed(said, asked, row.line, changes)
        if years and year != years[-1] + 1:
            words = f"the year {said} stands where {years[-1] + 1} comes next."
            is_without = asked.year_zero is None and (years[-1], said) == (-1, 1)
            remedy = "--year-zero no says that there is no year 0." if is_without else CONSECUTIVE
            raise Unreadable(row.line, words, remedy)
        years.append(year)
    return years


def _with_points(rows: Sequence[Row], separator: str) -> list[Row]:
    """The rows with points for the commas of widths, where semicolons stand between cells; a table has one of the two."""
    if separator != ";":
        return list(rows)
    sign = ""
    made = []
    for row in rows:
        for cell in row.cells[1:]:
            for found in ",.":
                if found in cell and sign not in ("", found):
                    words = "widths have both a comma and a point in this table, so that one may part thousands."
                    raise Unreadable(row.line, words, "Write all widths in one of the two ways.")
                sign = found if found in cell else sign
        made.append(Row(row.line, [row.cells[0], *(cell.replace(",", ".") for cell in row.cells[1:])]))
    return made


def _series(
    line: int, name: str, at: int, rows: Sequence[Row], years: Sequence[int], asked: Asked, changes: Changes
) -> Found:
    """The series of a column: its cells from the first to the last that is not empty."""
    shown = quoted(name.encode("utf-8"))
    filled = [place for place, row in enumerate(rows) if row.cells[at]]
    if not filled:
        raise Unreadable(line, f"series {shown} has no widths.", "Take the column out, or put its widths in.")
    start, end = filled[0], filled[-1] + 1
    for place in range(start, end):
        if not rows[place].cells[at]:
            words = f"series {shown} has an empty cell within, in {years[place]}."
            raise Unreadable(rows[place].line, words, "Put in the width, or 0 for an absent ring.")
    unit = asked.unit or "mm"
    widths = [thousandths(row.cells[at], unit, asked, row.line, changes) for row in rows[start:end]]
    return Found(line, name.encode("utf-8"), years[start], widths)


def text_of(series: Sequence[Series], separator: str = ",") -> bytes:
    """Series as a table, in millimetres.

    Examples
    --------
    >>> print(text_of([Series("A", 1998, [1230, 0]), Series("B", 1999, [500])]).decode(), end="")
    year,A,B
    1998,1.230,
    1999,0.000,0.500
    """
    made = io.StringIO()
    table = csv.writer(made, delimiter=separator, lineterminator="\n")
    table.writerow(["year", *(each.name for each in series)])
    columns = [(each.first, each.last, [int(width) for width in each.widths]) for each in series]
    for year in range(min(first for first, _, _ in columns), max(last for _, last, _ in columns) + 1):
        cells = [_cell(widths[year - first]) if first <= year <= last else "" for first, last, widths in columns]
        table.writerow([year, *cells])
    return made.getvalue().encode("ascii")


def _cell(width: int) -> str:
    return f"{width // PER_MM}.{width % PER_MM:03}"
