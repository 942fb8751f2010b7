"""The facts of what the engine refuses of lists, for the words: each function takes the lists and the place and gives what the
conditions and sentences of one number name. Number and place are the engine's; a fact that is not there is None.
"""

from __future__ import annotations

from collections.abc import Callable, Sequence
from dataclasses import dataclass, field
from fractions import Fraction
from math import comb, perm

from .._engine import LARGEST_PLACE
from ..errors import Refused
from ..limits import MOST_PART_STRETCHES, MOST_WIDTH, SCAR, UNIT, WOOD
from .numbers import count, millimetres, ring_at
from .table import Fact

DIFFER = ("values", "slopes", "bends")  # on the two sides of a join, by order
RINGS = ("", " a ring", " a ring and ring")

Told = dict[str, Fact]


@dataclass
class Lists:
    """What a call was given, as far as its refusal needs it."""

    breaks: Sequence[int]
    degrees: Sequence[int]
    orders: Sequence[int]
    pairs: Sequence[Sequence[int]] = ()
    positions: Sequence[int] = ()
    widths: Sequence[int] = ()
    first: int = 0
    wood: str = WOOD[0]
    width: int = 0
    ordinates: Sequence[int] = ()
    values: Sequence[int] = field(default_factory=list)


def parts(lists: Lists) -> list[tuple[int, int]]:
    """The (first stretch, stretch past the last) of each part between scars."""
    cuts = [join + 1 for join, order in enumerate(lists.orders) if order == SCAR]
    return list(zip([0, *cuts], [*cuts, len(lists.degrees)]))


def rows_sum(lists: Lists) -> tuple[int, str]:
    """The count of rows, and how it comes about."""
    conditions = sum(order + 1 for order in lists.orders)
    stretches = len(lists.degrees)
    rows = sum(lists.degrees) + stretches - conditions
    if stretches > MOST_PART_STRETCHES:
        return rows, f"{sum(lists.degrees)} + {stretches} - {conditions} = {rows}"
    added = " + ".join(f"({degree} + 1)" for degree in lists.degrees)
    taken = "".join(f" - {order + 1}" for order in lists.orders if order != SCAR)
    return rows, f"{added}{taken} = {rows}"


def of_lengths(lists: Lists, _: int) -> Told:
    noun, entries = ("ring", lists.widths) if len(lists.widths) else ("position", lists.positions)
    stretches = len(lists.degrees)
    told: Told = {"rings": len(lists.widths), "entries": count(len(entries), noun), "segments": stretches}
    told |= {"stretches": count(stretches, "stretch"), "breakpoints_needed": count(stretches + 1, "breakpoint")}
    told |= {"orders_needed": count(stretches - 1, "order"), "orders": count(len(lists.orders), "order")}
    return told | {"breakpoints": count(len(lists.breaks), "breakpoint")}


def of_breakpoint(lists: Lists, place: int) -> Told:
    breaks, ring = lists.breaks, lists.breaks[place]
    told: Told = {"ring": ring, "before": place - 1, "ring_before": breaks[place - 1] if place else None}
    first = next((first for first, end in parts(lists) if end == place), None)
    if first is None:
        return told | {"first": None, "ring_first": None, "rings": None, "span": None}
    rings = ring - breaks[first]
    return told | {"first": first, "ring_first": breaks[first], "rings": rings, "span": f"{rings:,}"}


def of_stretch(lists: Lists, place: int) -> Told:
    """The ends and the degree of a stretch, where there is one, and how many there are."""
    told: Told = {"segments": len(lists.degrees), "stretches": count(len(lists.degrees), "stretch")}
    if place >= len(lists.degrees):
        return told | {"start": None, "end": None, "degree": None}
    return told | {"start": lists.breaks[place], "end": lists.breaks[place + 1], "degree": lists.degrees[place]}


def of_order(lists: Lists, place: int) -> Told:
    before, after = lists.degrees[place], lists.degrees[place + 1]
    least = min(before, after)
    told: Told = {"ring": lists.breaks[place + 1], "order": lists.orders[place], "degree": least, "most": least - 1}
    return told | {"degree_before": before, "degree_after": after}


def of_part(lists: Lists, place: int) -> Told:
    pieces = parts(lists)
    end = next((end for first, end in pieces if first == place), place)
    told: Told = {"parts": len(pieces), "segments": end - place, "stretches": count(end - place, "stretch")}
    return told | {"start": lists.breaks[place], "end": lists.breaks[end]}


def of_coefficients(lists: Lists, place: int) -> Told:
    rows, added = rows_sum(lists)
    told: Told = {"listed": len(lists.pairs), "needed": rows, "sum": added}
    told |= {"pairs": count(len(lists.pairs), "pair"), "pairs_needed": count(rows, "pair")}
    row, side = divmod(place, len(WOOD))
    if place == LARGEST_PLACE:
        return told | {"pair": None, "earlywood": None, "latewood": None, "wood": None, "number": None}
    early, late = lists.pairs[row]
    return told | {"pair": row, "earlywood": early, "latewood": late, "wood": WOOD[side], "number": (early, late)[side]}


def of_position(lists: Lists, place: int) -> Told:
    first, last = lists.breaks[0], lists.breaks[-1]
    told: Told = {"first": first, "last": last, "least": UNIT * first, "most": UNIT * last}
    if len(lists.widths):
        return told | {"ring": lists.first + place, "position": None, "at": None}
    position = lists.positions[place]
    return told | {"ring": None, "position": position, "at": ring_at(position)}


def of_join(lists: Lists, place: int) -> Told:
    """The ring and the order of a join, its two sides, and the first condition that the ordinates miss there."""

    def side(at: int) -> str:
        return f"degree {lists.degrees[at]} over {count(lists.breaks[at + 1] - lists.breaks[at], 'ring')}"

    told: Told = {"ring": lists.breaks[place + 1], "order": lists.orders[place]}
    told |= {"before": side(place), "after": side(place + 1)}
    return told | {"miss": missed(lists, place) if len(lists.ordinates) else None}


def of_index(lists: Lists, place: int) -> Told:
    width = int(lists.widths[place])
    told: Told = {"ring": lists.first + place, "width": width, "wood": lists.wood}
    if not 0 <= width <= MOST_WIDTH:
        return told | {"height": None, "value": None}
    value = int(lists.values[place])
    return told | {"height": value, "value": millimetres(value)}


def of_reach(lists: Lists, _: int) -> Told:
    told: Told = {"start": lists.breaks[0], "end": lists.breaks[-1]}
    return told | {"wood": lists.wood, "width": millimetres(UNIT * lists.width)}


def of_ordinate(lists: Lists, place: int) -> Told:
    needed = sum(lists.degrees) + len(lists.degrees)
    told: Told = {"ordinates": count(len(lists.ordinates), "ordinate"), "ordinates_needed": count(needed, "ordinate")}
    return told | {"number": None if place == LARGEST_PLACE else lists.ordinates[place]}


def derivative(ordinates: Sequence[int], order: int, length: int) -> Fraction:
    """The derivative of a Bernstein polynomial at its start, by the ordinates there."""
    degree = len(ordinates) - 1
    difference = sum((-1) ** (order - i) * comb(order, i) * ordinates[i] for i in range(order + 1))
    return Fraction(perm(degree, order) * difference, length**order)


def missed(lists: Lists, join: int) -> str | None:
    """The first condition of a join that the ordinates miss, and by how much."""
    first = sum(lists.degrees[:join]) + join
    middle = first + lists.degrees[join] + 1
    left, right = lists.ordinates[first:middle], lists.ordinates[middle : middle + lists.degrees[join + 1] + 1]
    lengths_of = [lists.breaks[join + 1 + side] - lists.breaks[join + side] for side in (0, 1)]
    for order in range(lists.orders[join] + 1):
        before = (-1) ** order * derivative(left[::-1], order, lengths_of[0])
        difference = (derivative(right, order, lengths_of[1]) - before) / UNIT
        if difference:
            by = f"differ by {difference} thousandths of a millimetre{RINGS[order]}"
            return f"the {DIFFER[order]} on its two sides {by}"
    return None


FACTS: dict[int, Callable[[Lists, int], Told]] = {
    2: of_lengths,
    3: of_breakpoint,
    4: of_stretch,
    5: of_order,
    6: of_coefficients,
    7: of_position,
    8: of_join,
    9: of_join,
    14: of_index,
    15: of_part,
    16: of_reach,
    17: of_stretch,
    18: of_ordinate,
    19: of_join,
    20: of_join,
}


def refusal(lists: Lists, number: int, place: int) -> Refused:
    """What the engine has refused of the lists, with its words.

    Examples
    --------
    >>> print(refusal(Lists([0, 1], [6], []), 4, 0))
    no=4,0: Stretch 0, from ring 0 to ring 1, has degree 6: each degree is from 1 to 5.
    """
    facts = FACTS[number](lists, place) if number in FACTS else None
    return Refused.by_facts(number, place, "lists", facts)
