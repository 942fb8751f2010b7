"""What the server was given at its start: the series of a Tucson file, a sheet, and the design that the page begins
with. It is read once, and nothing is kept beside it.
"""

from __future__ import annotations

from collections.abc import Mapping, Sequence
from dataclasses import dataclass, field
from typing import Any

from ..counting import Counting, Origin
from ..dividing import computed_words
from ..failures import Refusal, Unusable
from ..fit import Unfittable, fit, template
from ..limits import DEGREES, MOST_BREAKPOINT, MOST_COEFFICIENT, MOST_ORDER, SCAR, WOOD
from ..sheet import Sheet
from ..tucson import Series
from .design import RING, Design
from .shapes import shapes

START = Sheet([0, 20, 60, 100], [3, 2, 1], [1, 0], [(n, n) for n in (1500, 2600, 2400, 1500, 1000, 800)])
LIMITS = {
    "degrees": list(range(DEGREES[0], DEGREES[1] + 1)),
    "orders": list(range(SCAR, MOST_ORDER + 1)),
    "breakpoint": MOST_BREAKPOINT,
    "coefficient": MOST_COEFFICIENT,
}


@dataclass
class Given:
    """What the server was given.

    Attributes
    ----------
    series : dict of Series by name
    names : list of str
        The files' names, to be shown.
    at : sequence of int
        The positions of the sheet.
    design : Design
        What the page begins with.
    words : str
        What is to be said of it.
    earliest : int, optional
        The first year of the earliest series that is named, or of all where none is.
    """

    series: Mapping[str, Series]
    names: list[str]
    design: Design
    at: Sequence[int] = field(default_factory=list)
    words: str = ""
    earliest: int | None = None

    @property
    def sheet_name(self) -> str | None:
        """The name of the sheet's file, where there is one: it stands behind the measured file's."""
        return self.names[-1] if len(self.names) > bool(self.series) else None

    def as_json(self) -> dict[str, Any]:
        """All that the page needs at its start."""
        series = [
            {"name": each.name, "year": each.first, "rings": len(each), "care": computed_words(each.name)}
            for each in self.series.values()
        ]
        return {
            "names": self.names,
            "words": self.words,
            "series": series,
            "earliest": self.earliest,
            "design": self.design.as_json(),
            "positions": len(self.at),
            "limits": LIMITS,
            "shapes": shapes(),
        }


def chosen_series(series: Mapping[str, Series], named: Mapping[str, str], is_whole_ring: bool) -> dict[str, str]:
    """The series beside each curve at the start: those that are named, or the first one beside the whole ring's."""
    if not is_whole_ring and RING in named:
        raise Unusable(
            "The sheet has a curve for each wood part: name the series of each, with --earlywood NAME and "
            "--latewood NAME."
        )
    if is_whole_ring and not named and series:
        return {RING: next(iter(series))}
    return dict(named)


def fitted(series: Mapping[str, Series], chosen: Mapping[str, str], origin: Origin) -> Design:
    """A design by the template over the chosen series, with coefficients fitted to each."""
    used = [series[name] for name in chosen.values()]
    begin = min(origin.ring_of(each) for each in used)
    rings = max(origin.ring_of(each) + len(each) for each in used) - begin
    try:
        space = template(rings, begin)
        sides = {wood: fit(space, series[name].widths, origin.ring_of(series[name])) for wood, name in chosen.items()}
    except Unfittable as error:
        raise Refusal(
            f"Series {', '.join(chosen.values())}: no curve to begin with. {error} Give a sheet with --curve."
        ) from error
    columns = [(sides.get(wood) or next(iter(sides.values()))).coefficients.tolist() for wood in WOOD]
    lists, pairs = space.lists(), list(zip(*columns))
    is_whole_ring = set(chosen) == {RING}
    design = Design(list(lists.breaks), list(lists.degrees), list(lists.orders), pairs, is_whole_ring, dict(chosen))
    design.first, design.earliest = origin
    return design


def copied_words(design: Design) -> str:
    """What is said of a wood part that begins with the other one's curve, since it has no series."""
    alone = [wood for wood in design.woods if wood not in design.series]
    if design.is_whole_ring or not alone:
        return ""
    return f"No series of the {alone[0]} is named: its curve begins as a copy of the other one."


def counted_series(series: Mapping[str, Series], named: Mapping[str, str]) -> list[Series]:
    """The series whose earliest one rings are counted from: those that are named, or all where none is."""
    return [series[name] for name in named.values()] or list(series.values())


def start(
    series: Mapping[str, Series], sheet: Sheet | None, named: Mapping[str, str], counting: Counting, names: list[str]
) -> Given:
    """What the page begins with: the sheet's curve, or one fitted to the series, or a small one."""
    among = counted_series(series, named)
    origin, earliest = counting.origin(among), min((each.first for each in among), default=None)
    if sheet is None and series:
        is_whole_ring = not (set(named) & set(WOOD))
        design = fitted(series, chosen_series(series, named, is_whole_ring), origin)
        return Given(series, names, design, words=copied_words(design), earliest=earliest)
    begun = sheet or START
    is_whole_ring = all(early == late for early, late in begun.pairs) and not (set(named) & set(WOOD))
    chosen = chosen_series(series, named, is_whole_ring)
    lists = [list(numbers) for numbers in (begun.breaks, begun.degrees, begun.orders)]
    design = Design(lists[0], lists[1], lists[2], list(begun.pairs), is_whole_ring, chosen)
    design.first, design.earliest = origin
    design.at = "given" if begun.at else "none"
    return Given(series, names, design, begun.at, earliest=earliest)
