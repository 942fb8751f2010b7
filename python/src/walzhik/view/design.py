"""What the page sends: a design, that is the lists of a curve, its coefficients and the series beside it. Here it is
only taken from JSON; whether the lists are a curve is the engine's decision.
"""

from __future__ import annotations

from collections.abc import Sequence
from dataclasses import dataclass, field
from typing import Any, Literal, cast, get_args

from ..counting import Origin
from ..curve import Curve, Wood
from ..limits import UNIT, WOOD
from ..sheet import Sheet
from ..space import Space

RING = "ring"  # the name of a curve of the whole ring where a wood part's name would stand
Positions = Literal["none", "rings", "given"]
MOST_POSITIONS = 4_096  # of a sheet


class Malformed(ValueError):
    """What was sent is no design; the message says what is wrong."""


@dataclass
class Design:
    """A curve being designed.

    Attributes
    ----------
    breaks, degrees, orders : list of int
    pairs : list of (int, int)
        Earlywood and latewood coefficient of each row; both sides equal for a curve of the whole ring.
    is_whole_ring : bool
        Whether one coefficient a row is shown.
    series : dict
        The name of the series beside the curve of ``ring``, ``earlywood`` or ``latewood``.
    first : int, optional
        The ring of the first width; rings are years where it is left out.
    earliest : int, optional
        The first year of the earliest series, which is ring `first` for all of them; where it is left out, `first` is the
        ring of each series' own first width.
    at : {"none", "rings", "given"}
        The positions that the sheet lists.
    positions : list of int, optional
        Those of a sheet that was opened in the page, in place of the given one's.
    """

    breaks: list[int]
    degrees: list[int]
    orders: list[int]
    pairs: list[tuple[int, int]]
    is_whole_ring: bool
    series: dict[str, str] = field(default_factory=dict)
    first: int | None = None
    at: Positions = "none"
    positions: list[int] | None = None
    earliest: int | None = None

    @property
    def woods(self) -> list[str]:
        """The curves that are shown: ``ring``, or both wood parts."""
        return [RING] if self.is_whole_ring else list(WOOD)

    @property
    def origin(self) -> Origin:
        """Where the rings of series are counted from."""
        return Origin(self.first, self.earliest)

    @property
    def lists(self) -> tuple[list[int], list[int], list[int]]:
        """The three lists of its space."""
        return self.breaks, self.degrees, self.orders

    def space(self) -> Space:
        """The space of the lists, if the engine accepts them."""
        return Space(self.breaks, self.degrees, self.orders)

    def curve(self, space: Space | None = None) -> Curve:
        """The curves, if the engine accepts them."""
        return Curve(space or self.space(), [list(pair) for pair in self.pairs])

    def sheet(self, given: Sequence[int]) -> Sheet:
        """The design's sheet.

        Parameters
        ----------
        given : sequence of int
            The positions of the sheet that was given.

        Examples
        --------
        >>> Design([0, 2], [1], [], [(9, 9), (8, 8)], True, at="rings").sheet([]).at
        [0, 256, 512]
        """
        own = given if self.positions is None else self.positions
        listed: dict[str, list[int]] = {"rings": ring_positions(self.breaks), "given": list(own)}
        at = listed.get(self.at, [])
        return Sheet(self.breaks, self.degrees, self.orders, self.pairs, at)

    def as_json(self) -> dict[str, Any]:
        """The design as the page takes it."""
        named = {wood: self.series.get(wood) for wood in (RING, *WOOD)}
        return vars(self) | {"pairs": [list(pair) for pair in self.pairs], "series": named}


def ring_positions(breaks: Sequence[int]) -> list[int]:
    """Every ring of a span, or every second, third and so on where a sheet can't list so many.

    Examples
    --------
    >>> ring_positions([3, 4, 6]), len(ring_positions([0, 5000]))
    ([768, 1024, 1280, 1536], 2501)
    """
    first, last = breaks[0], breaks[-1]
    step = 1 + max(0, last - first) // MOST_POSITIONS
    return [UNIT * ring for ring in range(first, last + 1, step)]


def wood_of(name: str) -> Wood | None:
    """The wood part of a curve's name; None for the whole ring."""
    return None if name == RING else cast(Wood, name)


def whole_numbers(sent: object, name: str) -> list[int]:
    """A list of whole numbers."""
    if not isinstance(sent, list) or not all(type(number) is int for number in sent):
        raise Malformed(f"{name} is no list of whole numbers.")
    return sent


def whole_or_none(sent: dict[str, Any], name: str) -> int | None:
    """A whole number of what was sent, or None where it is left out."""
    number = sent.get(name)
    if number is None or type(number) is int:
        return number
    raise Malformed(f"{name} is no whole number.")


def pairs_of(sent: object) -> list[tuple[int, int]]:
    """A list of pairs of whole numbers."""
    if not isinstance(sent, list):
        raise Malformed("pairs is no list.")
    pairs = [whole_numbers(pair, "A pair") for pair in sent]
    if any(len(pair) != len(WOOD) for pair in pairs):
        raise Malformed("A pair has not two numbers.")
    return [(pair[0], pair[1]) for pair in pairs]


def series_of(sent: object) -> dict[str, str]:
    """The names of series by wood parts, without those that are left out."""
    if not isinstance(sent, dict) or not set(sent) <= {RING, *WOOD}:
        raise Malformed("series does not name the series of ring, earlywood and latewood.")
    if not all(name is None or isinstance(name, str) for name in sent.values()):
        raise Malformed("A series' name is no text.")
    return {wood: name for wood, name in sent.items() if name is not None}


def design_of(sent: object) -> Design:
    """The design that was sent.

    Raises
    ------
    Malformed
        If it is none.

    Examples
    --------
    >>> design_of({"breaks": [0, 2.5]})
    Traceback (most recent call last):
    ...
    walzhik.view.design.Malformed: breaks is no list of whole numbers.
    """
    if not isinstance(sent, dict):
        raise Malformed("A design is needed.")
    lists = [whole_numbers(sent.get(name), name) for name in ("breaks", "degrees", "orders")]
    pairs, at = pairs_of(sent.get("pairs")), sent.get("at")
    first, earliest = whole_or_none(sent, "first"), whole_or_none(sent, "earliest")
    if not isinstance(at, str) or at not in get_args(Positions):
        raise Malformed("at is not none, rings or given.")
    is_whole_ring = sent.get("is_whole_ring")
    if not isinstance(is_whole_ring, bool):
        raise Malformed("is_whole_ring is neither true nor false.")
    if is_whole_ring and any(early != late for early, late in pairs):
        raise Malformed("A curve of the whole ring has pairs with two equal sides.")
    listed = sent.get("positions")
    positions = None if listed is None else whole_numbers(listed, "positions")
    series = series_of(sent.get("series"))
    made = Design(lists[0], lists[1], lists[2], pairs, is_whole_ring, series, first, cast(Positions, at), positions)
    made.earliest = earliest
    return made
