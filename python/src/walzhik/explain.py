"""What the engine makes of a sheet, and what a Tucson text holds, in words: a refusal with the entry at fault and the
rule, or a summary. Number and place are the engine's; only the words are from here.
"""

from __future__ import annotations

from typing import TYPE_CHECKING, NamedTuple

import numpy as np

from . import sheet, tucson
from .errors import Refused
from .limits import HUNDREDTHS, PER_MM, SCAR, WOOD
from .promises import promises
from .sheet_front import Tidied, as_before
from .words.numbers import count, millimetres
from .words.quoting import quoted
from .words.strict import closings

if TYPE_CHECKING:
    from .curve import Curve


COUNT_ON = "By proof you can count on this:"


class Explained(NamedTuple):
    """The words for a text, a line or more, and whether it was accepted."""

    words: str
    is_accepted: bool


def refused(error: Refused) -> Explained:
    """A refusal in two lines.

    Examples
    --------
    >>> print(refused(Refused(5, 0, "Join 0 has order 3.")).words)
    Refused: no=5,0.
    Join 0 has order 3.
    """
    return Explained(f"Refused: no={error.number},{error.place}.\n{error.words}", False)


def summary(lists: sheet.Sheet, printout: sheet.Printout) -> str:
    """Stretches, span, rows; the values' ranges; how many positions are low."""
    breaks = lists.breaks
    scars = [str(breaks[join + 1]) for join, order in enumerate(lists.orders) if order == SCAR]
    shape = (
        f"Accepted: {count(len(lists.degrees), 'stretch')} over {count(breaks[-1] - breaks[0] + 1, 'ring')}, from ring "
        f"{breaks[0]} to ring {breaks[-1]}, n = {printout.rows}"
        + (f", scar at ring {', '.join(scars)}" if scars else "")
    )
    if not printout.values:
        return f"{shape}.\nNo positions are listed. {all_values(lists.curve())}"
    sides = [[value[side] for value in printout.values] for side in (1, 2)]
    positions = count(len(printout.values), "position")
    ends = [(min(values), max(values)) for values in sides]
    return f"{shape}.\nOver {positions} {ranges(ends, len(printout.low))}"


def all_values(curve: Curve) -> str:
    """The least and the greatest value over all positions of the span, by the engine's values."""
    ends: list[tuple[int, int]] = []
    looked, low = 0, 0
    for positions, values in curve.scanned():
        looked, low = looked + len(positions), low + int((values <= 0).any(axis=1).sum())
        pieces = list(zip(values.min(axis=0).tolist(), values.max(axis=0).tolist()))
        ends = [(min(a, c), max(b, d)) for (a, b), (c, d) in zip(ends or pieces, pieces)]
    return f"Over all {looked:,} positions of the span {ranges(ends, low)}"


def ranges(ends: list[tuple[int, int]], low: int) -> str:
    """The least and the greatest value of each wood part, and how many positions are low."""
    told = [f"{name} is from {millimetres(least)} to {millimetres(most)} mm" for name, (least, most) in zip(WOOD, ends)]
    ending = f"{low:,} of them {'is' if low == 1 else 'are'} low (zero or less in either part)"
    return f"{' and '.join(told)}; {ending if low else 'none of them is low'}."


def explain_sheet(text: bytes) -> Explained:
    """What the proved program makes of a sheet.

    Examples
    --------
    >>> print(explain_sheet(b"breaks=0,60\\ndegrees=1\\norders=\\ncoefs=2400:700,900:300\\nat=\\n").words)
    Accepted: 1 stretch over 61 rings, from ring 0 to ring 60, n = 2.
    No positions are listed. Over all 15,361 positions of the span earlywood is from 0.900 to 2.400 mm and latewood is from 0.300 to 0.700 mm; none of them is low.
    """
    return explain_printed(text, sheet.printed(text))


def explain_tidied(made: Tidied) -> Explained:
    """What the proved program makes of a sheet that was tidied; a refusal names the line as it was before."""
    printed = sheet.printed(made.text)
    refusal = sheet.read_printout(printed).refusal
    if refusal:
        return refused(as_before(sheet.refused(made.text, *refusal), made.lines))
    return explain_printed(made.text, printed)


def with_promises(said: Explained, text: bytes) -> Explained:
    """The words for a sheet in the strict form and, where the program accepts it, what can be counted on.

    Examples
    --------
    >>> text = b"breaks=0,60\\ndegrees=1\\norders=\\ncoefs=2400:700,900:300\\nat=\\n"
    >>> lines = with_promises(explain_sheet(text), text).words.splitlines()
    >>> "- Raising coefficients lowers no value." in lines[lines.index(COUNT_ON) :]
    True
    """
    lists = sheet.lists_of(text) if said.is_accepted else None
    if lists is None:
        return said
    return Explained("\n".join([said.words, COUNT_ON, *(f"- {line}" for line in promises(lists))]), True)


def explain_printed(text: bytes, printed: bytes) -> Explained:
    """The words for a sheet and what the program has printed for it."""
    printout = sheet.read_printout(printed)
    if printout.refusal:
        return refused(sheet.refused(text, *printout.refusal))
    lists = sheet.lists_of(text)
    if lists is None:
        raise sheet.NoPrintout("The program sheet has accepted a text that is no sheet.")
    return Explained(summary(lists, printout), True)


def series_line(series: tucson.Series, closing: int) -> str:
    """What a series holds, in one line."""
    name, unit = quoted(series.columns.strip(b" ")), "hundredths" if closing == HUNDREDTHS else "thousandths"
    if not len(series):
        return f"Series {name} has no widths."
    widths = np.asarray(series.widths)
    present = widths[widths != 0]
    spread = f", {present.min() / PER_MM:g} to {present.max() / PER_MM:g} mm" if present.size else ""
    absent = count(len(series) - present.size, "ring")
    years = f"{series.first} to {series.last}"
    return f"Series {name}: {count(len(series), 'width')} in {unit}, {years}{spread}, {absent} absent."


def summary_of_series(text: bytes, series: list[tucson.Series]) -> Explained:
    """How many series a strict text holds, and a line for each."""
    lines = [series_line(each, closing) for each, closing in zip(series, closings(text))]
    return Explained("\n".join([f"Accepted: {len(series):,} series.", *lines]), True)


def explain_tucson(text: bytes) -> Explained:
    """What a Tucson text holds, by the proved reader.

    Examples
    --------
    >>> print(explain_tucson(b"FEW     1998    12     9\\nFEW     2000     7 -9999\\n").words)
    Accepted: 1 series.
    Series 'FEW': 3 widths in thousandths, 1998 to 2000, 0.007 to 0.012 mm, no rings absent.
    """
    try:
        return summary_of_series(text, tucson.read_strict(text))
    except Refused as error:
        return refused(error)


def refused_file(error: Refused) -> Explained:
    """A refusal of a laboratory's file, with what to do as a third line.

    Examples
    --------
    >>> print(refused_file(Refused(24, 1, "Line 1 closes with -999.", "Say the unit.")).words)
    Refused: no=24,1.
    Line 1 closes with -999.
    Say the unit.
    """
    return Explained(f"{refused(error).words}\n{error.remedy}".rstrip("\n"), False)
