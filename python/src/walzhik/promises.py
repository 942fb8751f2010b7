"""What a member can count on for the sheet at hand, with figures: the theorems of docs/THEOREMS.md, "What members can count on", read off the
three lists and the coefficients. Nothing is worked out here that a proved call works out, and no value is read.
"""

from __future__ import annotations

from collections.abc import Sequence
from typing import NamedTuple

from . import sheet
from .limits import MOST_WIDTH, PER_MM, SCAR, UNIT, WOOD
from .words.lists import Lists, parts, rows_sum
from .words.numbers import count

SAFE_ORDER = 1  # up to which falling lists give falling curves


class Reach(NamedTuple):
    """The stretches on which one row's coefficients act, from the first to the last."""

    row: int
    first: int
    last: int


def reaches(degrees: Sequence[int], orders: Sequence[int]) -> list[Reach]:
    """For each row the stretches on which it acts (rows_that_act).

    Examples
    --------
    >>> reaches([2, 2], [1])
    [Reach(row=0, first=0, last=0), Reach(row=1, first=0, last=1), Reach(row=2, first=0, last=1), Reach(row=3, first=1, last=1)]
    """
    found: dict[int, Reach] = {}
    start = 0
    for stretch, degree in enumerate(degrees):
        for row in range(start, start + degree + 1):
            found[row] = Reach(row, found[row].first if row in found else stretch, stretch)
        start += degree - (orders[stretch] if stretch < len(orders) else SCAR)
    return [found[row] for row in sorted(found)]


def most_weights(orders: Sequence[int], stretch: int) -> int:
    """How many coefficients have a say in an ordinate of a stretch, at most (weights_are_counted).

    Examples
    --------
    >>> [most_weights([-1, 2], stretch) for stretch in range(3)]
    [1, 3, 3]
    """
    return 1 + max([0, *orders[max(stretch - 1, 0) : stretch + 1]])


def most_moved(orders: Sequence[int]) -> int:
    """How many 256ths of a thousandth a value moves at most by one thousandth in its coefficients (close_coefficients_close_values).

    Examples
    --------
    >>> most_moved([]), most_moved([0, 1]), most_moved([-1, 2])
    (256, 257, 258)
    """
    return UNIT + max([0, *orders])


def furthest(lists: sheet.Sheet) -> float:
    """How many 256ths of a thousandth a value is from the exact curve at most, (s + p)/2 (cells_are_close).

    Examples
    --------
    >>> furthest(sheet.Sheet([0, 10, 30], [2, 3], [1], []))
    2.5
    """
    return max(most_weights(lists.orders, stretch) + degree for stretch, degree in enumerate(lists.degrees)) / 2


def falls(coefficients: Sequence[int]) -> bool:
    """Whether no coefficient is above the one before it."""
    return all(one >= other for one, other in zip(coefficients, coefficients[1:]))


def by_part(lists: sheet.Sheet, coefficients: Sequence[int]) -> list[Sequence[int]]:
    """The coefficients of each part between scars.

    Examples
    --------
    >>> by_part(sheet.Sheet([0, 1, 3], [1, 2], [-1], []), [5, 4, 3, 2, 1])
    [[5, 4], [3, 2, 1]]
    """
    found, row = [], 0
    for first, end in parts(Lists(lists.breaks, lists.degrees, lists.orders)):
        part = Lists(lists.breaks[first : end + 1], lists.degrees[first:end], lists.orders[first : end - 1])
        found.append(coefficients[row : row + rows_sum(part)[0]])
        row += rows_sum(part)[0]
    return found


def rings(lists: sheet.Sheet, reach: Reach) -> int:
    """How many rings long the stretches are on which a row acts."""
    return lists.breaks[reach.last + 1] - lists.breaks[reach.first]


def shape_lines(lists: sheet.Sheet) -> list[str]:
    """How far a coefficient acts, how much a value moves, what raising does, and how close the values are."""
    widest = max(reaches(lists.degrees, lists.orders), key=lambda reach: rings(lists, reach))
    first, last = lists.breaks[widest.first], lists.breaks[widest.last + 1]
    moved = most_moved(lists.orders)
    return [
        f"A coefficient changes no value outside its own stretches. The widest, of row {widest.row}, acts on "
        f"{count(rings(lists, widest), 'year')}, from ring {first} to ring {last}.",
        f"Coefficients that are off by one thousandth move no value by more than {moved / UNIT:.4f} thousandths.",
        "Raising coefficients lowers no value.",
        f"Every value is within {furthest(lists):g}/{UNIT} of a thousandth of a millimetre of the exact curve.",
    ]


def direction_line(lists: sheet.Sheet, name: str, coefficients: Sequence[int]) -> str | None:
    """Which way a curve goes, where its coefficients and orders settle it (equal-cells, falling-beam-cells, falling-cells)."""
    if len(set(coefficients)) == 1:
        return f"The {name} is exactly {coefficients[0] / PER_MM:.3f} mm everywhere: its coefficients are equal."
    if max(lists.orders, default=SCAR) > SAFE_ORDER:
        return None
    own, back = by_part(lists, coefficients), by_part(lists, [-each for each in coefficients])
    if falls(coefficients):
        return f"The {name} never rises: no coefficient is above the one before it, and no order is above 1."
    if falls([-each for each in coefficients]):
        return f"The {name} never falls: no coefficient is below the one before it, and no order is above 1."
    if all(map(falls, own)):
        return f"The {name} never rises except at a scar: within each part no coefficient is above the one before it."
    if all(map(falls, back)):
        return f"The {name} never falls except at a scar: within each part no coefficient is below the one before it."
    return None


def index_line(name: str, coefficients: Sequence[int]) -> str | None:
    """Up to which width an index is within 1 of the exact one: 125 w < 8 m^2 (index_is_within_one).

    Examples
    --------
    >>> index_line("latewood", [300, 200])
    'An index by the latewood is within 1 of that by the exact curve for widths up to 2.559 mm.'
    """
    least = min(coefficients)
    if least <= 0:
        return None
    widest = min((8 * least * least - 1) // 125, MOST_WIDTH)
    return f"An index by the {name} is within 1 of that by the exact curve for widths up to {widest / PER_MM:.3f} mm."


def end_line(lists: sheet.Sheet, name: str, coefficients: Sequence[int]) -> str:
    """The first and the last value (first-value_is_the_first-coefficient, last-value_is_the_last-coefficient)."""
    ends = (
        f"{coefficient / PER_MM:.3f} mm at ring {ring}"
        for coefficient, ring in zip(coefficients[:: len(coefficients) - 1], lists.breaks[:: len(lists.degrees)])
    )
    return f"The {name} is exactly {' and '.join(ends)}."


def wood_lines(lists: sheet.Sheet) -> list[str]:
    """What the coefficients of each part of the wood promise; of the whole ring where both are the same."""
    sides = list(zip(*lists.pairs))
    named = [("curve", sides[0])] if sides[0] == sides[1] else list(zip(WOOD, sides))
    lines = []
    for name, coefficients in named:
        made = [direction_line(lists, name, coefficients), end_line(lists, name, coefficients)]
        lines += [line for line in [*made, index_line(name, coefficients)] if line]
    if len(named) > 1 and all(late <= early for early, late in lists.pairs):
        lines.append("No latewood value is above the earlywood's: no latewood coefficient is.")
    return lines


def safe_lines(lists: sheet.Sheet) -> list[str]:
    """That the lists are never refused for their size, and that the curve is above zero, where it is so."""
    lines = []
    if max(lists.orders, default=SCAR) <= SAFE_ORDER:
        lines.append("No order is above 1: such lists, within the limits, are never refused.")
    if min(each for pair in lists.pairs for each in pair) > 0:
        lines.append("All coefficients are above zero, so the curve is above zero everywhere.")
    return lines


def promises(lists: sheet.Sheet) -> list[str]:
    """What can be counted on, a line each.

    Examples
    --------
    >>> for line in promises(sheet.Sheet([0, 60], [1], [], [(2400, 700), (900, 800)])):
    ...     print(line)
    A coefficient changes no value outside its own stretches. The widest, of row 0, acts on 60 years, from ring 0 to ring 60.
    Coefficients that are off by one thousandth move no value by more than 1.0000 thousandths.
    Raising coefficients lowers no value.
    Every value is within 1/256 of a thousandth of a millimetre of the exact curve.
    No order is above 1: such lists, within the limits, are never refused.
    All coefficients are above zero, so the curve is above zero everywhere.
    The earlywood never rises: no coefficient is above the one before it, and no order is above 1.
    The earlywood is exactly 2.400 mm at ring 0 and 0.900 mm at ring 60.
    An index by the earlywood is within 1 of that by the exact curve for widths up to 51.839 mm.
    The latewood never falls: no coefficient is below the one before it, and no order is above 1.
    The latewood is exactly 0.700 mm at ring 0 and 0.800 mm at ring 60.
    An index by the latewood is within 1 of that by the exact curve for widths up to 31.359 mm.
    No latewood value is above the earlywood's: no latewood coefficient is.
    """
    return shape_lines(lists) + safe_lines(lists) + wood_lines(lists)
