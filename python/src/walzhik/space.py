"""Spline spaces: breakpoints, degrees and continuity orders, and the exact weights that the engine builds from them.
Whether lists are a space is the engine's decision alone.
"""

from __future__ import annotations

from collections.abc import Iterator
from fractions import Fraction
from typing import TYPE_CHECKING, Any, NamedTuple

import numpy as np

from ._engine import kept, lent, library, listed, pointer
from .words.lists import Lists, parts as parts_of, refusal

if TYPE_CHECKING:
    from numpy.typing import NDArray

    from ._engine import Wholes


class Weights(NamedTuple):
    """The weights of a space that are not zero, as exact fractions, rows rising, then columns.

    A row is a coefficient, a column a Bernstein ordinate: those of all segments in order, degree + 1 for each.

    Attributes
    ----------
    rows, columns, numerators, denominators : ndarray of int64, one entry for each weight
        Weight i stands in row ``rows[i]`` and column ``columns[i]`` and is ``numerators[i] / denominators[i]``, in
        lowest terms with a positive denominator.
    """

    rows: NDArray[np.int64]
    columns: NDArray[np.int64]
    numerators: NDArray[np.int64]
    denominators: NDArray[np.int64]

    def fractions(self) -> Iterator[tuple[int, int, Fraction]]:
        """Row, column and weight, one after another."""
        for row, column, top, bottom in zip(*(numbers.tolist() for numbers in self)):
            yield row, column, Fraction(top, bottom)


class Space:
    """A space of splines whose segments may have different degrees.

    Parameters
    ----------
    breaks : sequence of int, length m + 1
        The breakpoints in rings, strictly rising.
    degrees : sequence of int, length m
        The degree of each segment, 1 to 5.
    orders : sequence of int, length m - 1
        The continuity order of each join; -1 is a discontinuity (a scar).

    Attributes
    ----------
    breaks, degrees, orders : ndarray of int32
    n : int
        The number of rows: how many coefficients a curve has.

    Raises
    ------
    Refused
        If the engine refuses the lists.

    Examples
    --------
    >>> space = Space([0, 1, 3], [2, 2], [1])
    >>> space.n, space.columns, space.parts
    (4, 6, [(0, 2)])
    """

    def __init__(self, breaks: Wholes, degrees: Wholes, orders: Wholes) -> None:
        given = {"breaks": breaks, "degrees": degrees, "orders": orders}
        self.breaks, self.degrees, self.orders = (kept(listed(each, name), name) for name, each in given.items())
        self._lent = _lend(self.breaks, self.degrees, self.orders)
        reply = library.walzhik_build(*self._lent, *lent.weights)
        if reply.number:
            raise refusal(Lists(list(breaks), list(degrees), list(orders)), reply.number, reply.place)
        self.n = int(reply.count)
        self._weights: Weights | None = None

    @property
    def columns(self) -> int:
        """The number of Bernstein ordinates of all segments."""
        return int(self.degrees.sum()) + len(self.degrees)

    @property
    def parts(self) -> list[tuple[int, int]]:
        """The first segment and the segment past the last of each part between discontinuities."""
        return parts_of(self.lists())

    def __reduce__(self) -> tuple[Any, ...]:
        """Spaces go to other processes as their lists."""
        return Space, (self.breaks, self.degrees, self.orders)

    def __repr__(self) -> str:
        return f"Space({self.breaks.tolist()}, {self.degrees.tolist()}, {self.orders.tolist()})"

    def __eq__(self, other: object) -> bool:
        if not isinstance(other, Space):
            return NotImplemented
        return self.lists() == other.lists()

    def __hash__(self) -> int:
        return hash((tuple(self.breaks.tolist()), tuple(self.degrees.tolist()), tuple(self.orders.tolist())))

    def lists(self) -> Lists:
        """The three lists as plain numbers."""
        return Lists(self.breaks.tolist(), self.degrees.tolist(), self.orders.tolist())

    @property
    def weights(self) -> Weights:
        """The exact weights of all parts.

        Examples
        --------
        >>> weights = Space([0, 1, 3], [2, 2], [1]).weights
        >>> [(row, column, str(weight)) for row, column, weight in weights.fractions()][1:4]
        [(1, 1, '1'), (1, 2, '2/3'), (1, 3, '2/3')]
        """
        if self._weights is None:
            self._weights = self._built()
        return self._weights

    def matrix(self) -> NDArray[np.float64]:
        """The weights as floats, shape (n, columns), each the float nearest to its fraction.

        Examples
        --------
        >>> Space([0, 1, 3], [2, 2], [1]).matrix().sum(axis=0)
        array([1., 1., 1., 1., 1., 1.])
        """
        weights = self.weights
        dense = np.zeros((self.n, self.columns))
        dense[weights.rows, weights.columns] = weights.numerators / weights.denominators
        return dense

    def _built(self) -> Weights:
        """Build each part by itself: the weights of any part are those of its own lists alone."""
        found: list[NDArray[np.int64]] = []
        row = column = 0
        for first, end in self.parts:
            part = _lend(self.breaks[first : end + 1], self.degrees[first:end], self.orders[first : end - 1])
            reply = library.walzhik_build(*part, *lent.weights)
            columns = int(self.degrees[first:end].sum()) + end - first
            tops = lent.numerators[: reply.count, :columns]
            at = np.nonzero(tops)
            found.append(np.stack([at[0] + row, at[1] + column, tops[at], lent.denominators[at]]))
            row, column = row + int(reply.count), column + columns
        return Weights(*np.concatenate(found, axis=1))


def _lend(*lists: NDArray[np.int32]) -> tuple[Any, ...]:
    """Pointers and lengths of lists, as the calls take them."""
    lent_lists: list[Any] = []
    for numbers in lists:
        lent_lists += [pointer(numbers), len(numbers)]
    return tuple(lent_lists)
