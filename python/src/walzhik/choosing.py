"""Series chosen by name: names and patterns of them, the nearest names where none fits, and the wood part that a series is
named for. Apart because commands, the data bank and the screen must mean the same by a name.
"""

from __future__ import annotations

from collections.abc import Iterable, Sequence
from dataclasses import replace
from difflib import get_close_matches
from fnmatch import fnmatchcase
from typing import NamedTuple

from .curve import Curve, Wood
from .failures import Unusable
from .limits import WOOD
from .tucson import Series

SHOWN_NAMES = 12
NEAREST = 5  # names that are told of many


class Names(NamedTuple):
    """The series that are named, by how."""

    series: tuple[str, ...]
    earlywood: tuple[str, ...]
    latewood: tuple[str, ...]

    def all(self) -> tuple[str, ...]:
        return self.series + self.earlywood + self.latewood


def without_blanks(series: Iterable[Series]) -> list[Series]:
    """Series by their names without outer blanks, as tables have them.

    Examples
    --------
    >>> [each.name for each in without_blanks([Series(" A 1", 1900, [900])])]
    ['A 1']
    """
    bare = ((each, each.name.strip(" ")) for each in series)
    return [each if each.name == name else replace(each, name=name) for each, name in bare]


def listed(series: Iterable[Series]) -> str:
    """The names of series, cut where there are many."""
    names = [each.name for each in series]
    rest = len(names) - SHOWN_NAMES
    return ", ".join(names[:SHOWN_NAMES]) + (f" and {rest:,} more" if rest > 0 else "")


def fits(name: str, pattern: str) -> bool:
    """Whether a pattern, with * for any letters and ? for one, fits a name; blanks around it do not count.

    Examples
    --------
    >>> fits("DTR04", "DTR*"), fits("DTR04", " DTR04 "), fits("A[1]", "A[1]"), fits("DTR04", "dtr*")
    (True, True, True, False)
    """
    return fnmatchcase(name, pattern.strip(" ").replace("[", "[[]"))


def fitting(series: Sequence[Series], pattern: str) -> list[Series]:
    """The series whose names a pattern fits, in their order.

    Raises
    ------
    Unusable
        If there is none: the nearest names are told.
    """
    found = [each for each in series if each.name == pattern.strip(" ")]
    found = found or [each for each in series if fits(each.name, pattern)]
    if not found:
        raise Unusable(f"No series is named {pattern}: {nearest_names(series, pattern)}.")
    return found


def nearest_names(series: Sequence[Series], name: str) -> str:
    """The names that there are, or of many those that are nearest to one."""
    names = [each.name for each in series]
    if len(names) <= SHOWN_NAMES:
        return f"there are {listed(series) or 'none'}"
    near = get_close_matches(name.strip(" "), names, NEAREST, 0)
    return f"of {len(names):,} the nearest are {', '.join(near)}"


def named(series: Sequence[Series], name: str) -> Series:
    """The one series that a name or a pattern fits."""
    found = fitting(series, name)
    if len(found) > 1:
        raise Unusable(f"{name} fits {len(found):,} series, but one is taken here: {listed(found)}.")
    return found[0]


def named_by(patterns: Names, series: Sequence[Series]) -> Names:
    """The names that patterns fit, each of which must fit one."""
    return Names(*(tuple(each.name for pattern in wanted for each in fitting(series, pattern)) for wanted in patterns))


def chosen_series(series: list[Series], names: Names) -> list[Series]:
    """The named series, in the files' order; all where none is named."""
    known = {each.name for each in series}
    wanted = {name if name in known else named(series, name).name for name in names.all()}
    return [each for each in series if each.name in wanted] if wanted else series


def wood_of(name: str, names: Names, path: str, curve: Curve) -> Wood | None:
    """The wood part whose curve divides a series; None for a curve of the whole ring."""
    parts = [part for part, listed_names in zip(WOOD, names[1:]) if name in listed_names]
    if len(parts) > 1:
        raise Unusable(f"Series {name} is named as earlywood and as latewood.")
    if curve.is_whole_ring:
        return None
    if not parts:
        raise Unusable(
            f"{path} has a curve for each wood part: name the series of a wood part, "
            "with --earlywood NAME or --latewood NAME."
        )
    return "earlywood" if parts[0] == WOOD[0] else "latewood"
