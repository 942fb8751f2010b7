"""Growth curves over a space: values, ring indices, the first reach of a width and pieces for a screen. Every number
comes from the engine's proved calls; only `to_scipy` hands the curve on to another library's floating point.
"""

from __future__ import annotations

from collections.abc import Iterator, Sequence
from fractions import Fraction
from typing import TYPE_CHECKING, Any, Literal, NamedTuple

import numpy as np

from ._engine import LARGEST_PLACE, MOST_POSITIONS, kept, lent, library, listed, pointer, whole, wholes
from .limits import UNIT, WOOD
from .words.lists import refusal

if TYPE_CHECKING:
    from numpy.typing import NDArray
    from scipy.interpolate import BPoly

    from ._engine import Wholes
    from .errors import Refused
    from .space import Space

Wood = Literal["earlywood", "latewood"]
WHOLE_RING = "whole ring"  # what a refusal calls a curve whose wood nobody had to name
EMPTY = np.zeros(1, dtype=np.int32)
OF_RINGS = (7, 14)  # the numbers of refusals whose place counts the rings of a series
NOTHING = (pointer(EMPTY), 0)  # a list or buffer without entries, which still needs a valid pointer


class Piece(NamedTuple):
    """One segment of a curve as a Bezier piece, exact in floats.

    Attributes
    ----------
    degree : int
        1, 2 or 3.
    ordinates : tuple of float, length degree + 1
        In thousandths of a millimetre, at equal distances from start to end.
    start, end : float
        The segment's two breakpoints, in rings.
    """

    degree: int
    ordinates: tuple[float, ...]
    start: float
    end: float


class Divided(NamedTuple):
    """Consecutive rings divided by a curve, as the index call leaves them.

    Attributes
    ----------
    pairs : ndarray of int32, shape (rings, 2)
        Both curves at each ring, in 256ths of a thousandth of a millimetre.
    indices : ndarray of int64
        As `Curve.indices` gives them.
    side : int
        The column of the wood part that has divided: 0 for earlywood, 1 for latewood.
    """

    pairs: NDArray[np.int32]
    indices: NDArray[np.int64]
    side: int

    @property
    def values(self) -> NDArray[np.int32]:
        """The curve of the wood part at each ring."""
        return self.pairs[:, self.side]


class Curve:
    """Two growth curves over one space, of earlywood and of latewood, or one of the whole ring.

    Parameters
    ----------
    space : Space
    coefficients : array_like of int, shape (n, 2) or (n,)
        Thousandths of a millimetre: earlywood and latewood of each row, or one number a row for a curve of the whole
        ring.

    Attributes
    ----------
    space : Space
    coefficients : ndarray of int32, shape (n, 2)
    is_whole_ring : bool
        Whether all pairs have two equal sides, so that nobody needs to name a wood part.

    Raises
    ------
    Refused
        If the engine refuses the coefficients.

    Examples
    --------
    >>> from walzhik import Curve, Space
    >>> curve = Curve(Space([0, 1, 3], [2, 2], [1]), [0, 100, 0, 0])
    >>> curve.values([256, 512])
    array([[17067, 17067],
           [ 4267,  4267]], dtype=int32)
    """

    def __init__(self, space: Space, coefficients: Wholes | Sequence[Sequence[int]]) -> None:
        given = wholes(np.asarray(coefficients), "coefficients")
        if given.ndim == 1:
            given = np.repeat(given[:, np.newaxis], len(WOOD), axis=1)
        if given.ndim != len(WOOD) or given.shape[1] != len(WOOD):
            raise TypeError(
                f"coefficients: one number or one pair a row is needed, not an array of shape {given.shape}"
            )
        self._take(space, kept(given, "coefficients"), bool((given[:, 0] == given[:, 1]).all()))
        self._ask(coefficients)

    def _take(self, space: Space, pairs: NDArray[np.int32], is_whole_ring: bool) -> None:
        """Keep the lists, and what is lent to each call."""
        self.space, self.coefficients, self.is_whole_ring = space, pairs, is_whole_ring
        self._lent = (*space._lent, pointer(pairs), pairs.size)

    @classmethod
    def unasked(cls, space: Space, coefficients: NDArray[np.int64]) -> Curve:
        """A curve of the whole ring that is asked for values or indices at once: that call says whether the engine takes
        the coefficients, and no other is made for it."""
        made = cls.__new__(cls)
        made._take(space, kept(np.repeat(coefficients, len(WOOD)).reshape(-1, len(WOOD)), "coefficients"), True)
        return made

    def _ask(self, given: Wholes | Sequence[Sequence[int]]) -> None:
        """Let the engine say whether it takes the coefficients, whose own numbers a refusal tells."""
        reply = library.walzhik_curve(*self._lent, *NOTHING, *lent.weights, *NOTHING)
        if reply.number:
            pairs = [tuple(pair) if np.ndim(pair) else (pair, pair) for pair in list(given)]
            raise self._refused(reply, pairs=pairs)

    def __reduce__(self) -> tuple[Any, ...]:
        """Curves go to other processes as their lists."""
        return Curve, (self.space, self.coefficients)

    def __eq__(self, other: object) -> bool:
        if not isinstance(other, Curve):
            return NotImplemented
        return self.space == other.space and bool((self.coefficients == other.coefficients).all())

    def __hash__(self) -> int:
        return hash((self.space, self.coefficients.tobytes()))

    def __repr__(self) -> str:
        return f"Curve({self.space!r}, {self.coefficients.tolist()})"

    def values(self, positions: Wholes) -> NDArray[np.int32]:
        """Both curves at positions.

        Parameters
        ----------
        positions : sequence of int, at most 4096
            In 256ths of a ring, in any order, each within the span.

        Returns
        -------
        ndarray of int32, shape (k, 2)
            Earlywood and latewood at each position, in 256ths of a thousandth of a millimetre.

        Raises
        ------
        Refused
            If the engine refuses a position.
        """
        at = listed(positions, "positions")
        values = np.empty((at.size, len(WOOD)), dtype=np.int32)
        reply = library.walzhik_curve(*self._lent, pointer(at), at.size, *lent.weights, pointer(values), values.size)
        if reply.number:
            raise self._refused(reply, positions=list(positions))
        return values

    def scanned(self) -> Iterator[tuple[range, NDArray[np.int32]]]:
        """All positions of the span in order, in pieces that one call takes, each with both curves there.

        Examples
        --------
        >>> from walzhik import Curve, Space
        >>> [(positions, values.shape) for positions, values in Curve(Space([0, 16], [1], []), [1, 2]).scanned()]
        [(range(0, 4096), (4096, 2)), (range(4096, 4097), (1, 2))]
        """
        first, end = UNIT * int(self.space.breaks[0]), UNIT * int(self.space.breaks[-1]) + 1
        for start in range(first, end, MOST_POSITIONS):
            positions = range(start, min(start + MOST_POSITIONS, end))
            yield positions, self.values(np.arange(positions.start, positions.stop, dtype=np.int32))

    def indices(self, widths: Wholes, first: int, wood: Wood | None = None) -> NDArray[np.int64]:
        """Ring indices: each measured ring divided by the curve.

        Parameters
        ----------
        widths : sequence of int
            Thousandths of a millimetre, of consecutive rings; 0 is an absent ring.
        first : int
            The number of the first ring, counted as the breakpoints are.
        wood : {"earlywood", "latewood"}, optional
            The part whose curve is used; left out for a curve of the whole ring.

        Returns
        -------
        ndarray of int64
            The greatest whole number at or below 256000 width / value for each ring; -1 for an absent one.

        Raises
        ------
        Refused
            If the engine refuses a ring or a width.
        ValueError
            If the two curves differ and no wood part is named.

        Examples
        --------
        >>> from walzhik import Curve, Space
        >>> Curve(Space([0, 2], [1], []), [1000, 3000]).indices([1000, 1000, 0], 0)
        array([1000,  500,   -1])
        """
        return self.divided(widths, first, wood).indices

    def rings(
        self, widths: Wholes, first: int, wood: Wood | None = None
    ) -> tuple[NDArray[np.int32], NDArray[np.int64]]:
        """The curve's value at each ring, in 256ths of a thousandth, and the index, as `indices` gives it.

        Examples
        --------
        >>> from walzhik import Curve, Space
        >>> Curve(Space([0, 2], [1], []), [1000, 3000]).rings([1000, 1000, 0], 0)
        (array([256000, 512000, 768000], dtype=int32), array([1000,  500,   -1]))
        """
        made = self.divided(widths, first, wood)
        return made.values.copy(), made.indices

    def divided(self, widths: Wholes, first: int, wood: Wood | None = None) -> Divided:
        """The rings with both curves, as `walzhik.dividing` prints them.

        A call of the engine takes 4,096 rings; a longer series is put to it in several.
        """
        side, measured, start = self.side(wood), listed(widths, "widths"), whole(first, "first")
        pairs = np.empty((measured.size, len(WOOD)), dtype=np.int32)
        indices = np.empty(measured.size, dtype=np.int64)
        for at in range(0, max(measured.size, 1), MOST_POSITIONS):
            piece = slice(at, at + MOST_POSITIONS)
            reply = self._divided(side, whole(start + at, "first"), measured[piece], pairs[piece], indices[piece])
            if reply.number:
                told = {"widths": list(widths), "first": first, "wood": wood or WHOLE_RING}
                raise self._refused(reply, at, values=pairs[:, side].tolist(), **told)
        return Divided(pairs, indices, side)

    def _divided(
        self,
        side: int,
        first: int,
        widths: NDArray[np.int32],
        pairs: NDArray[np.int32],
        indices: NDArray[np.int64],
    ) -> Any:
        """One call for indices."""
        call = library.walzhik_latewood_indices if side else library.walzhik_earlywood_indices
        return call(
            *self._lent,
            first,
            pointer(widths),
            widths.size,
            *lent.weights,
            pointer(pairs),
            pairs.size,
            pointer(indices, "int64_t[]"),
            indices.size,
        )

    def reach(self, width: int, wood: Wood | None = None) -> int:
        """The first position that reaches a width.

        Parameters
        ----------
        width : int
            In thousandths of a millimetre.
        wood : {"earlywood", "latewood"}, optional
            The part; left out for a curve of the whole ring.

        Returns
        -------
        int
            The least position of the span, in 256ths of a ring, whose value is 256 times the width or more.

        Raises
        ------
        Refused
            With number 16 if no position reaches it.

        Examples
        --------
        >>> from walzhik import Curve, Space
        >>> Curve(Space([0, 2], [1], []), [1000, 3000]).reach(2000)
        256
        """
        side = self.side(wood)
        call = library.walzhik_latewood_reach if side else library.walzhik_earlywood_reach
        reply = call(*self._lent, whole(width, "width"), *lent.weights)
        if reply.number:
            raise self._refused(reply, width=width, wood=wood or WHOLE_RING)
        return int(reply.position)

    def piece(self, segment: int, wood: Wood | None = None) -> Piece:
        """One segment of degree 1, 2 or 3 as a Bezier piece, exact in floats.

        Parameters
        ----------
        segment : int
            Its number, counted from 0.
        wood : {"earlywood", "latewood"}, optional
            The part; left out for a curve of the whole ring.

        Raises
        ------
        Refused
            With number 17 if there is no such segment, or its degree is 4 or 5.

        Examples
        --------
        >>> from walzhik import Curve, Space
        >>> Curve(Space([0, 2], [1], []), [1000, 3000]).piece(0)
        Piece(degree=1, ordinates=(1000.0, 3000.0), start=0.0, end=2.0)
        """
        side = self.side(wood)
        call = library.walzhik_latewood_piece if side else library.walzhik_earlywood_piece
        whole(segment, "segment")
        number = int(segment) if 0 <= segment <= LARGEST_PLACE else LARGEST_PLACE
        reply = call(*self._lent, number, *lent.weights)
        if reply.number:
            raise self._refused(reply, wood=wood or WHOLE_RING)
        ordinates = (reply.o0, reply.o1, reply.o2, reply.o3)[: reply.degree + 1]
        return Piece(int(reply.degree), ordinates, reply.start, reply.end)

    def pieces(self, wood: Wood | None = None) -> list[Piece]:
        """All segments as Bezier pieces, if all degrees are 1, 2 or 3; see `piece`."""
        return [self.piece(segment, wood) for segment in range(len(self.space.degrees))]

    def ordinates(self, wood: Wood | None = None) -> list[list[Fraction]]:
        """The exact Bernstein ordinates of each segment, in thousandths of a millimetre.

        Examples
        --------
        >>> from walzhik import Curve, Space
        >>> curve = Curve(Space([0, 1, 3], [2, 2], [1]), [0, 100, 0, 0])
        >>> [str(ordinate) for ordinate in curve.ordinates()[1]]
        ['200/3', '0', '0']
        """
        side = self.side(wood)
        exact = [Fraction(0)] * self.space.columns
        coefficients = self.coefficients[:, side].tolist()
        for row, column, weight in self.space.weights.fractions():
            exact[column] += coefficients[row] * weight
        ends = np.cumsum(self.space.degrees + 1).tolist()
        return [exact[start:end] for start, end in zip([0, *ends], ends)]

    def to_scipy(self, wood: Wood | None = None) -> BPoly:
        """The curve as SciPy's BPoly, in thousandths of a millimetre over rings, for derivatives, integrals and roots.

        The ordinates are the exact ones, rounded to floats after their degrees are raised to the greatest of the space.
        At a discontinuity BPoly reads the segment that starts there, the engine the one that ends there.

        Examples
        --------
        >>> from walzhik import Curve, Space
        >>> line = Curve(Space([0, 2], [1], []), [1000, 3000]).to_scipy()
        >>> float(line(1.5)), float(line.derivative()(1.0)), float(line.integrate(0, 2))
        (2500.0, 1000.0, 4000.0)
        """
        from scipy.interpolate import BPoly

        most = int(self.space.degrees.max())
        raised = [_raised(ordinates, most) for ordinates in self.ordinates(wood)]
        floats = np.array([[float(ordinate) for ordinate in ordinates] for ordinates in raised])
        return BPoly(np.ascontiguousarray(floats.T), self.space.breaks.astype(np.float64))

    def side(self, wood: Wood | None) -> int:
        """The column of a wood part: 0 for earlywood, 1 for latewood; 0 for a curve of the whole ring.

        Raises
        ------
        ValueError
            If the two curves differ and no wood part is named, or another one is.
        """
        if wood is None:
            if self.is_whole_ring:
                return 0
            raise ValueError("The curves of earlywood and latewood differ: name the wood part.")
        if wood not in WOOD:
            raise ValueError(f"{wood!r} is no wood part: it is earlywood or latewood.")
        return WOOD.index(wood)

    def _refused(self, reply: Any, before: int = 0, **given: Any) -> Refused:
        """The refusal of a call that was given what follows so many entries before it."""
        lists = self.space.lists()
        lists.pairs = self.coefficients.tolist()
        for name, entries in given.items():
            setattr(lists, name, entries)
        place = reply.place + before if reply.number in OF_RINGS else reply.place
        return refusal(lists, reply.number, place)


def _raised(ordinates: list[Fraction], degree: int) -> list[Fraction]:
    """The ordinates of the same polynomial written with a higher degree."""
    while len(ordinates) <= degree:
        top = len(ordinates)
        shares = [Fraction(i, top) for i in range(top + 1)]
        before, after = [Fraction(0), *ordinates], [*ordinates, Fraction(0)]
        ordinates = [share * left + (1 - share) * right for share, left, right in zip(shares, before, after)]
    return ordinates
