"""Curves from measured widths: least squares over a space's exact weights, in a shape, and the template that stands in
where no breakpoints are given. A fit is a choice in floating point and is not proved; what its coefficients give is then
the engine's to say.
"""

from __future__ import annotations

from dataclasses import dataclass
from typing import TYPE_CHECKING, NamedTuple

import numpy as np

from ._engine import listed
from .curve import Curve, Divided
from .fit_design import Design, bernstein, design, segments_at
from .fit_shape import LEAST_COEFFICIENT, SHAPES, Shape, Unsolved, free, is_determined, shaped
from .fit_template import TEMPLATES, Unfittable, template
from .limits import PER_MM, UNIT
from .space import Space
from .words.numbers import count

if TYPE_CHECKING:
    from numpy.typing import NDArray

    from ._engine import Wholes

__all__ = [
    "Closeness",
    "Design",
    "Fit",
    "LEAST_COEFFICIENT",
    "SHAPES",
    "Shape",
    "TEMPLATES",
    "Unfittable",
    "bernstein",
    "closeness",
    "design",
    "fit",
    "fit_within",
    "segments_at",
    "template",
]
NEAR_HALF = 1e-6  # of a thousandth: what is so near below a half is rounded up as it is, or last digits would decide
PROVED_ORDER = 1  # up to it, coefficients that do not rise give values that do not: falling_lists_fall


@dataclass
class Fit:
    """A fitted curve of the whole ring.

    Attributes
    ----------
    curve : Curve
    coefficients : ndarray of int32, shape (n,)
        Whole thousandths of a millimetre, each at least 1.
    widths : ndarray of int32
    first : int
        The number of the first ring.
    shapes : tuple of {"falling", "hump", "free"}
        Of each part between scars.
    divided : Divided
        The rings divided by the engine's curve.
    """

    curve: Curve
    coefficients: NDArray[np.int32]
    widths: NDArray[np.int32]
    first: int
    shapes: tuple[Shape, ...]
    divided: Divided

    @property
    def never_rises(self) -> bool:
        """Whether, by proof, no value is above an earlier one of its part: no coefficient is, and orders are at most 1."""
        orders = self.curve.space.orders
        return set(self.shapes) == {"falling"} and bool(orders.max(initial=PROVED_ORDER) <= PROVED_ORDER)

    @property
    def least_rows(self) -> list[int]:
        """The rows whose coefficient is the least that is allowed: there the widths ask for a lower curve."""
        rows: list[int] = np.flatnonzero(self.coefficients == LEAST_COEFFICIENT).tolist()
        return rows

    @property
    def rings(self) -> tuple[NDArray[np.int32], NDArray[np.int64]]:
        """The engine's curve at each ring and the index, as `Curve.rings` gives them."""
        return self.divided.values, self.divided.indices

    def values(self) -> NDArray[np.int32]:
        """The engine's curve at each ring, in 256ths of a thousandth of a millimetre."""
        return self.divided.values

    def closeness(self) -> Closeness:
        """How close the engine's curve is to the present widths."""
        return closeness(self.widths, self.values())


class Closeness(NamedTuple):
    """How close a curve is to measured widths.

    Attributes
    ----------
    mean_square : float
        The mean of the squares of width less curve over the present rings, in square millimetres.
    share_explained : float or None
        The share of the widths' variance that the curve explains; None where all widths are equal.
    """

    mean_square: float
    share_explained: float | None


def closeness(widths: NDArray[np.int32], values: NDArray[np.int32]) -> Closeness:
    """How close values, in 256ths of a thousandth, are to the present ones of the widths, in thousandths.

    Examples
    --------
    >>> closeness(np.array([1000, 0, 3000]), np.array([256000, 256000, 512000]))
    Closeness(mean_square=0.5, share_explained=0.5)
    """
    present = widths != 0
    held = widths[present]
    measured = held / PER_MM
    left = measured - values[present] / (UNIT * PER_MM)
    about = measured - measured.sum() / measured.size
    squares, total = float(left @ left), float(about @ about)
    is_level = bool((held == held[0]).all())  # by the whole numbers: floats leave a remainder
    return Closeness(squares / measured.size, None if is_level else 1 - squares / total)


def fit(space: Space, widths: Wholes, first: int, shape: Shape = "auto") -> Fit:
    """The least-squares curve of a series of widths, every coefficient at least a thousandth of a millimetre.

    The weights are the space's exact ones. Each part between scars has its shape: coefficients that do not rise, or rise
    once and then fall, by non-negative least squares (SciPy's nnls) on their differences, of deviations relative to the
    curve; or any, by plain least squares. They are then rounded to whole thousandths. An absent ring is left out.

    Parameters
    ----------
    space : Space
    widths : sequence of int
        Thousandths of a millimetre, of consecutive rings; 0 is an absent ring.
    first : int
        The number of the first ring, counted as the breakpoints are.
    shape : {"auto", "falling", "hump", "free"}
        "auto" is falling, unless one hump is better by the test of `fit_shape`.

    Raises
    ------
    Unfittable
        If the widths don't determine the curve.
    Refused
        If the engine refuses a ring (7) or the coefficients (6).

    Examples
    --------
    >>> fitted = fit(Space([0, 3], [1], []), [4000, 3000, 0, 1000], 0)
    >>> fitted.coefficients, fitted.closeness()
    (array([4000, 1000], dtype=int32), Closeness(mean_square=0.0, share_explained=1.0))
    """
    _ask_rings(space, listed(widths, "widths"), first)
    return fit_within(space, widths, first, shape)


def fit_within(space: Space, widths: Wholes, first: int, shape: Shape = "auto") -> Fit:
    """As `fit`, of rings that the space was made for and widths as the proved reader gives them: the engine is asked about
    them only when they are divided by the curve."""
    measured = listed(widths, "widths")
    whole = design(space, first, measured.size)
    is_present = measured != 0
    if not (whole.is_determined if is_present.all() else is_determined(whole.matrix, is_present)):
        raise Unfittable(_undetermined(space, measured, first))
    try:
        found = _free(whole, measured, is_present) if shape == "free" else _shaped(whole, measured, shape)
    except Unsolved as error:
        raise Unfittable(str(error)) from error
    coefficients = np.floor(found + (1 / 2 + NEAR_HALF)).astype(np.int64)
    curve = Curve.unasked(space, coefficients)
    divided = curve.divided(measured, first)
    shapes = tuple(_shape_of(coefficients[part.rows], shape) for part in whole.parts)
    return Fit(curve, curve.coefficients[:, 0], measured, first, shapes, divided)


def _shaped(whole: Design, widths: NDArray[np.int32], shape: Shape) -> NDArray[np.float64]:
    """The coefficients of all parts, each fitted by itself."""
    if shape not in SHAPES:
        raise ValueError(f"shape: {shape!r} is none of {', '.join(SHAPES)}")
    if len(whole.parts) == 1:
        return shaped(whole.parts[0], widths, shape)
    return np.concatenate([shaped(part, widths[part.rings], shape) for part in whole.parts])


def _free(whole: Design, widths: NDArray[np.int32], is_present: NDArray[np.bool_]) -> NDArray[np.float64]:
    """The coefficients of plain least squares over all parts at once."""
    if is_present.all():
        return free(whole.orthogonal, whole.triangular, widths)
    orthogonal, triangular = np.linalg.qr(whole.matrix[is_present])
    return free(orthogonal, triangular, widths[is_present])


def _shape_of(coefficients: NDArray[np.int64], shape: Shape) -> Shape:
    """What shape the rounded coefficients of a part have."""
    if shape == "free":
        return shape
    return "hump" if (coefficients[1:] > coefficients[:-1]).any() else "falling"


def _ask_rings(space: Space, widths: NDArray[np.int32], first: int) -> None:
    """Let the engine say whether all rings lie within the space, and whether the widths are widths."""
    Curve.unasked(space, np.full(space.n, LEAST_COEFFICIENT)).indices(widths, first)


def _undetermined(space: Space, widths: NDArray[np.int32], first: int) -> str:
    """Why a curve isn't determined: how many rings each stretch has."""
    rings = first + np.flatnonzero(widths).astype(np.int64)
    segments = segments_at(space.lists(), rings)
    held = np.bincount(segments, minlength=len(space.degrees)).tolist()
    told = ", ".join(f"{count(rings, 'ring')} in stretch {stretch}" for stretch, rings in enumerate(held))
    return (
        f"Its present rings don't determine the curve, which has {count(space.n, 'coefficient')}: there are {told}. "
        "Take fewer or longer stretches, or lower degrees."
    )
