"""How the rings of series are counted: as years, from the earliest series, or each series by itself. Apart because the
commands, the screen, the data bank and R must mean the same by `--first` and by `--each-first`; none counts rings in a
way of its own.
"""

from __future__ import annotations

from collections.abc import Sequence
from dataclasses import dataclass
from typing import TYPE_CHECKING, NamedTuple

if TYPE_CHECKING:
    from .tucson import Series


class Origin(NamedTuple):
    """Where rings are counted from, once it is known which series is the earliest.

    Attributes
    ----------
    ring : int or None
        None where rings are years.
    year : int or None
        The year that is this ring for all series; None where it is the ring of each series' own first width.

    Examples
    --------
    >>> from walzhik.tucson import Series
    >>> series = Series("A", 1805, [900, 800])
    >>> Origin().ring_of(series), Origin(1, 1801).ring_of(series), Origin(1).ring_of(series)
    (1805, 5, 1)
    """

    ring: int | None = None
    year: int | None = None

    def ring_of(self, series: Series) -> int:
        """The ring of a series' first width."""
        if self.ring is None:
            return series.first
        return self.ring if self.year is None else self.ring + series.first - self.year


@dataclass(frozen=True)
class Counting:
    """The numbers of rings, for all series that one call works on together: those that are named, or all where none is.

    Without a number rings are years. `first` (the option ``--first``) is the ring of the first width of the earliest of
    these series; the others keep their distance in years, so that a year is one ring in all of them. `each_first` (the
    option ``--each-first``) is the ring of each series' own first width, as where rings are counted from the pith. A
    sheet does not say how its rings are counted, so whoever uses one tells it with `words`.

    Attributes
    ----------
    first, each_first : int or None
        At most one of the two.

    Raises
    ------
    ValueError
        If both are given.

    Examples
    --------
    >>> from walzhik.tucson import Series
    >>> pair = [Series("A", 1805, [900, 800]), Series("B", 1801, [950, 940])]
    >>> Counting().starts(pair), Counting(first=1).starts(pair), Counting(each_first=1).starts(pair)
    ([1805, 1801], [5, 1], [1, 1])
    """

    first: int | None = None
    each_first: int | None = None

    def __post_init__(self) -> None:
        if self.first is not None and self.each_first is not None:
            raise ValueError("Give --first or --each-first, not both.")

    @property
    def is_by_years(self) -> bool:
        """Whether rings are years."""
        return self.first is None and self.each_first is None

    def origin(self, series: Sequence[Series]) -> Origin:
        """Where the rings of the series are counted from, which are all that are worked on together."""
        if self.first is None:
            return Origin(self.each_first)
        return Origin(self.first, min((each.first for each in series), default=0))

    def starts(self, series: Sequence[Series]) -> list[int]:
        """The ring of the first width of each of the series, which are all that are worked on together."""
        origin = self.origin(series)
        return [origin.ring_of(each) for each in series]

    def words(self, series: Sequence[Series]) -> str:
        """A line that says which meaning is used, with the year that a number stands for.

        Examples
        --------
        >>> from walzhik.tucson import Series
        >>> print(Counting(first=1).words([Series("A", 1805, [900]), Series("B", 1801, [950])]))
        Rings are counted by --first: 1801, the first year of series B, is ring 1 for all series.
        """
        if self.each_first is not None:
            return f"Rings are counted by --each-first: the first width of each series is its ring {self.each_first}."
        if self.first is None:
            return "Rings are read as years; --first RING or --each-first RING would count them."
        if not series:
            return f"Rings are counted by --first: the first year of the earliest series is ring {self.first}."
        earliest = min(series, key=lambda each: each.first)
        return (
            f"Rings are counted by --first: {earliest.first}, the first year of series {earliest.name}, "
            f"is ring {self.first} for all series."
        )
