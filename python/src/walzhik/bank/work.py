"""What the text of one file comes to: its series, each with its curve and its indices, as outputs and rows of the
report. Nothing is read or written here.
"""

from __future__ import annotations

from collections import Counter
from collections.abc import Iterable, Sequence
from time import perf_counter
from typing import NamedTuple
from urllib.parse import quote

import numpy as np

from .. import notes, sheet, tucson, widths
from ..choosing import Names, fits, listed, without_blanks, wood_of
from ..curve import Curve
from ..dividing import HEADER, Indexed, as_tucson, computed_words, divided, ring_lines
from ..errors import Refused
from ..failures import Failure, Refusal, telling
from ..fit import Fit, closeness
from ..fit_series import Asked, own_fit
from ..formats import form_of
from ..tucson import Series
from ..widths import UNIT_OF_TABLES
from .inputs import GZIP, stem
from .options import Options
from .places import INDICES, SHEET, SHEETS
from .records import PARTS, Record, Row

SHOWN_DIGITS = 6  # of closeness, so that a last bit never shows


class Done(NamedTuple):
    """A series with its values and indices, by a given curve or by a fit."""

    indexed: Indexed
    curve: Curve
    fit: Fit | None


def number_of(failure: Failure) -> int | None:
    """The engine's number of a refusal that is its own."""
    return failure.__cause__.number if isinstance(failure.__cause__, Refused) else None


def worked_out(record: Record, options: Options, text: bytes) -> tuple[Record, dict[str, bytes]]:
    """The record of a text with its outputs."""
    series, changes = series_of(record.path, text, options)
    series = without_blanks(series)
    names, chosen = options.names, series
    if names.all():
        names = named_by(names, series)
        chosen = [each for each in series if each.name in names.all()]
    record = record._replace(changes=changes + computed_names(chosen, options.ending))
    if not chosen:
        none = f"None of its series is asked for: there are {listed(series)}." if series else "It holds no series."
        return record._replace(refusal=none), {}
    rows, texts, outputs = [], [], {}
    times = Counter(each.name for each in chosen)
    curve, asked = options.given_curve(), options.fits()
    front = stem(record.path)
    for each, start in zip(chosen, options.counting().starts(chosen)):
        begun = perf_counter()
        try:
            refuse_shared(each, times)
            done = by_fit(each, start, asked) if curve is None else by_curve(each, start, names, curve)
            texts.append(text_of(done.indexed, options.ending))
            if done.fit is not None:
                outputs[f"{front}{SHEETS}/{quote(each.name, safe='')}{SHEET}"] = sheet.sheet_of(done.curve).text()
            row = row_of(done)
        except Failure as failure:
            row = Row(each.name, len(each), None, failure.message, each.first, number=number_of(failure))
        rows.append(row._replace(seconds=perf_counter() - begun))
    if texts:
        head = HEADER if options.ending == "csv" else b""
        outputs[f"{front}{INDICES}{options.ending}"] = b"".join([head, *texts])
    return record._replace(rows=sorted(rows, key=lambda row: row.name)), outputs


def row_of(done: Done) -> Row:
    """The row of a series that went well."""
    series, rings = done.indexed
    widths, n = np.asarray(series.widths), done.curve.space.n
    if not widths.any():
        return Row(series.name, len(series), n, "", series.first)
    close = closeness(widths, rings.values)
    share = None if close.share_explained is None else round(close.share_explained, SHOWN_DIGITS)
    shape = "" if done.fit is None else PARTS.join(done.fit.shapes)
    deviation = round(close.mean_square**0.5, SHOWN_DIGITS)
    return Row(series.name, len(series), n, "", series.first, shape, deviation, share)


def series_of(path: str, text: bytes, options: Options) -> tuple[list[Series], list[str]]:
    """The series of a text, and what was noted or changed: the one place where the bank reads a laboratory's file."""
    form = options.form or form_of(path.lower().removesuffix(GZIP), b"")
    with telling(""):
        if form != "tucson":
            if options.strict:
                raise Refusal("--strict takes a Tucson file as it is. Leave it out for other files.")
            if form == "csv" and options.unit is not None:
                raise Refusal(UNIT_OF_TABLES)
            made = widths.read(text, form, options.asked)
            return made.series, [str(change) for change in made.changes]
        if options.strict:
            return tucson.read_strict(text), []
        front = tucson.clean(text, options.header, options.unit)
        return tucson.read_strict(front.text), notes.sentences(front.notes)


def computed_names(chosen: Iterable[Series], ending: str) -> list[str]:
    """What is told of names that a spreadsheet would compute in the table."""
    told = [computed_words(each.name) for each in chosen] if ending == "csv" else []
    return [words for words in told if words is not None]


def named_by(patterns: Names, series: Sequence[Series]) -> Names:
    """The names that patterns fit.

    Examples
    --------
    >>> named_by(Names((), ("*E",), ("*L",)), [Series("A1E", 1, [1]), Series("A1L", 1, [1]), Series("B", 1, [1])])
    Names(series=(), earlywood=('A1E',), latewood=('A1L',))
    """

    def fitting(wanted: Iterable[str]) -> tuple[str, ...]:
        return tuple(each.name for each in series if any(fits(each.name, pattern) for pattern in wanted))

    return Names(*(fitting(wanted) for wanted in patterns))


def refuse_shared(series: Series, times: Counter[str]) -> None:
    """No series whose name another one has: they would be taken for one another."""
    if times[series.name] > 1:
        raise Refusal(f"{times[series.name]} series of the file are named {series.name}. Give each its own name.")


def by_fit(series: Series, start: int, asked: Asked) -> Done:
    """A series divided by a curve that is fitted to it."""
    made = own_fit(series, start, asked)
    return Done(Indexed(series, made.divided), made.curve, made)


def by_curve(series: Series, start: int, names: Names, curve: Curve) -> Done:
    """A series divided by a given curve."""
    wood = wood_of(series.name, names, "The sheet", curve)
    return Done(divided(series, curve, start, wood), curve, None)


def text_of(indexed: Indexed, ending: str) -> bytes:
    """A series' lines of the output, as the command `indices` writes them."""
    if ending != "csv":
        return as_tucson([indexed])
    with telling(f"Series {indexed.series.name}"):
        return ring_lines(*indexed)
