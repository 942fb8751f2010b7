"""A space at consecutive rings: what each coefficient weighs there, and what each difference of coefficients does. Apart
because it depends on the space and the rings alone: it is worked out once for all series that lie alike.
"""

from __future__ import annotations

from functools import lru_cache
from math import comb
from typing import TYPE_CHECKING, NamedTuple

import numpy as np

from .limits import MOST_BREAKPOINT, SCAR
from .space import Space
from .words.lists import Lists

if TYPE_CHECKING:
    from numpy.typing import NDArray

KEPT_DESIGNS = 256
DEPENDENT = 1e-8  # of the greatest singular value: what is below it is none


class Part(NamedTuple):
    """A part between scars: it has rings and rows of its own, so it is fitted by itself.

    Attributes
    ----------
    rings, rows : slice
        Which of the design's.
    steps : ndarray of float64, shape (rings, rows)
        What a rise of all coefficients up to a row by one does at each ring.
    orthogonal, triangular : ndarray of float64
        The factors of the steps.
    """

    rings: slice
    rows: slice
    steps: NDArray[np.float64]
    orthogonal: NDArray[np.float64]
    triangular: NDArray[np.float64]


class Design(NamedTuple):
    """A space at consecutive rings, factored once for all series that share it.

    Attributes
    ----------
    matrix : ndarray of float64, shape (rings, n)
        What each coefficient weighs at each ring.
    orthogonal, triangular : ndarray of float64
        The factors of the matrix: their product is it.
    is_determined : bool
        Whether the rings determine the coefficients.
    parts : tuple of Part
    """

    matrix: NDArray[np.float64]
    orthogonal: NDArray[np.float64]
    triangular: NDArray[np.float64]
    is_determined: bool
    parts: tuple[Part, ...]


def segments_at(lists: Lists, rings: NDArray[np.int64]) -> NDArray[np.int64]:
    """The segment that the engine reads each ring from: the one that starts there, at a discontinuity the one that ends
    there."""
    inner = np.asarray(lists.breaks[1:-1], dtype=np.int64)
    found = np.searchsorted(inner, rings, side="right")
    scars = inner[np.asarray(lists.orders, dtype=np.int64) == SCAR]
    return found - np.isin(rings, scars)


def bernstein(degree: int, at: NDArray[np.float64]) -> NDArray[np.float64]:
    """The Bernstein polynomials of a degree, shape (positions, degree + 1).

    Examples
    --------
    >>> bernstein(2, np.array([0.5]))
    array([[0.25, 0.5 , 0.25]])
    """
    powers = np.arange(degree + 1)
    chosen = np.array([comb(degree, power) for power in powers.tolist()])
    across = at[:, np.newaxis]
    return np.asarray(chosen * across**powers * (1 - across) ** (degree - powers))


def parts_of(space: Space, segments: NDArray[np.int64], matrix: NDArray[np.float64]) -> tuple[Part, ...]:
    """The parts of a space, with the rings that lie in each."""
    parts, row = [], 0
    for first, end in space.parts:
        rows = int(space.degrees[first:end].sum()) + end - first - int((space.orders[first : end - 1] + 1).sum())
        rings = slice(*np.searchsorted(segments, [first, end]).tolist())
        part = slice(row, row + rows)
        steps = np.cumsum(matrix[rings, part], axis=1)
        orthogonal, triangular = np.linalg.qr(steps)
        parts.append(Part(rings, part, steps, orthogonal, triangular))
        row += rows
    return tuple(parts)


@lru_cache(maxsize=KEPT_DESIGNS)
def _design(
    breaks: tuple[int, ...], degrees: tuple[int, ...], orders: tuple[int, ...], first: int, rings: int
) -> Design:
    space = Space(breaks, degrees, orders)
    numbers = np.arange(first, first + rings, dtype=np.int64)
    segments, weights = segments_at(space.lists(), numbers), space.matrix()
    matrix = np.zeros((rings, space.n))
    column = 0
    for segment, degree in enumerate(degrees):
        here = np.flatnonzero(segments == segment)
        start, end = breaks[segment], breaks[segment + 1]
        basis = bernstein(degree, (numbers[here] - start) / (end - start))
        matrix[here] = basis @ weights[:, column : column + degree + 1].T
        column += degree + 1
    orthogonal, triangular = np.linalg.qr(matrix)
    return Design(matrix, orthogonal, triangular, is_independent(matrix), parts_of(space, segments, matrix))


def is_independent(matrix: NDArray[np.float64]) -> bool:
    """Whether a matrix's columns are independent, by its singular values.

    Examples
    --------
    >>> is_independent(np.eye(3)[:, :2]), is_independent(np.ones((3, 2))), is_independent(np.eye(3)[:2])
    (True, False, False)
    """
    rings, rows = matrix.shape
    if rings < rows:
        return False
    sizes = np.linalg.svd(matrix, compute_uv=False)
    return bool(sizes.min() > DEPENDENT * sizes.max())


def design(space: Space, first: int, rings: int) -> Design:
    """What each coefficient of a space weighs at consecutive rings.

    Only the distances of breakpoints and rings count, so series of other years share it.

    Examples
    --------
    >>> design(Space([1900, 1902], [1], []), 1900, 3).matrix
    array([[1. , 0. ],
           [0.5, 0.5],
           [0. , 1. ]])
    """
    shift = int(space.breaks[0]) + MOST_BREAKPOINT  # so that the longest beam stays within the range of breakpoints
    breaks = tuple((space.breaks - shift).tolist())
    return _design(breaks, tuple(space.degrees.tolist()), tuple(space.orders.tolist()), first - shift, rings)
