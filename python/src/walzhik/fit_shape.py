"""Coefficients that fall, or rise once and then fall, fitted to the widths of one part of a curve: non-negative least
squares on their differences, of deviations relative to the curve. A choice in floating point, not proved; that
coefficients which do not rise give values which do not rise is (docs/THEOREMS.md, falling_lists_fall).
"""

from __future__ import annotations

from math import log
from typing import TYPE_CHECKING, Literal, NamedTuple, get_args

import numpy as np

from .fit_design import Part, is_independent

if TYPE_CHECKING:
    from numpy.typing import NDArray

Shape = Literal["auto", "falling", "hump", "free"]
SHAPES: tuple[Shape, ...] = get_args(Shape)
LEAST_COEFFICIENT = 1  # a thousandth of a millimetre: so the curve stays above zero
ROUNDS = 2  # of weights, after a first fit without
HUMP_TEST = 2.0  # times ln n: so much must n ln of the ratio of deviances be for a hump
HUMP_TRIED = 1.0  # times ln n: so much less must coefficients of any signs leave, or no hump is tried
FLOOR = 1e-9  # of squares: what is closer than this counts as exact
WELL_APART = 1e-6  # of the greatest pivot: below it the normal equations would lose too many digits


class Unsolved(ValueError):
    """The solver does not come to an end."""


class Measured(NamedTuple):
    """The rings of a part, the widths there less one, and which are present."""

    part: Part
    above: NDArray[np.float64]
    is_present: NDArray[np.bool_]
    present: int


class System(NamedTuple):
    """Least squares of one set of weights, as a triangle: what is sought, times it, is the target, as nearly as can be;
    `left` is what steps of any signs leave of the squares."""

    triangle: NDArray[np.float64]
    target: NDArray[np.float64]
    left: float


class Stage(NamedTuple):
    """A fit: the steps, the curve at the rings, and the system that the steps solve best, with what they leave more."""

    steps: NDArray[np.float64]
    curve: NDArray[np.float64]
    system: System
    more: float


def system(measured: Measured, weights: NDArray[np.float64]) -> System:
    """The triangle of weighted least squares, by the normal equations; by orthogonal factors where these are too close
    to dependent."""
    rings, rows = measured.part.steps.shape
    bordered = np.empty((rings, rows + 1))
    np.multiply(measured.part.steps, weights[:, np.newaxis], out=bordered[:, :rows])
    np.multiply(measured.above, weights, out=bordered[:, rows])
    squares = bordered.T @ bordered
    floor = FLOOR * (squares[rows, rows] + measured.present)
    squares[rows, rows] += floor
    try:
        triangle = np.linalg.cholesky(squares).T
        *pivots, corner = triangle.diagonal().tolist()
        if min(pivots) > WELL_APART * max(pivots):
            return System(triangle[:rows, :rows], triangle[:rows, rows], corner**2)
    except np.linalg.LinAlgError:
        pass
    _, upper = np.linalg.qr(bordered)
    left = float(upper[rows, rows] ** 2) if len(upper) > rows else 0.0
    return System(upper[:rows, :rows], upper[:rows, rows], left + floor)


def plain_system(measured: Measured) -> System:
    """The same without weights: where all rings are present, by the factors that all series of the part share."""
    if measured.present < len(measured.above):
        return system(measured, measured.is_present.astype(np.float64))
    return System(measured.part.triangular, measured.above @ measured.part.orthogonal, 0.0)


def solved(measured: Measured, given: System, signs: NDArray[np.float64] | None = None) -> Stage:
    """The best steps of the given signs; none is below zero where no signs are given."""
    from scipy.optimize import nnls

    try:
        sizes, distance = nnls(given.triangle if signs is None else given.triangle * signs, given.target)
    except RuntimeError as error:
        raise Unsolved(f"The least-squares solver does not come to an end with these widths ({error}).") from error
    if signs is None:
        return Stage(sizes, measured.part.steps @ sizes + LEAST_COEFFICIENT, given, distance**2)
    steps = sizes * signs
    curve = np.maximum(measured.part.steps @ steps, 0) + LEAST_COEFFICIENT
    return Stage(steps, curve, given, distance**2)


def reweighted(measured: Measured, stage: Stage, signs: NDArray[np.float64] | None = None) -> Stage:
    """A fit again, of deviations relative to the curve before."""
    for _ in range(ROUNDS):
        stage = solved(measured, system(measured, measured.is_present / stage.curve), signs)
    return stage


def falling(measured: Measured) -> Stage:
    """Coefficients that do not rise: no step is below zero."""
    return reweighted(measured, solved(measured, plain_system(measured)))


def hump(measured: Measured, before: Stage) -> Stage:
    """Coefficients that rise up to one and fall after it: the one that leaves least beside the weights of the falling
    fit, then with weights of its own."""
    rows = measured.part.steps.shape[1]
    peaks = [np.where(np.arange(rows) < peak, -1.0, 1.0) for peak in range(1, rows)]
    stages = [solved(measured, before.system, signs) for signs in peaks]
    best = min(range(len(stages)), key=lambda at: stages[at].more)
    return reweighted(measured, stages[best], peaks[best])


def deviance(measured: Measured, stage: Stage) -> float:
    """The mean of r - 1 - ln r over the present rings, r being width over curve: zero where they are equal, about half the
    square of the relative deviation where it is small."""
    ratio = (measured.above[measured.is_present] + LEAST_COEFFICIENT) / stage.curve[measured.is_present]
    return max(float((ratio - 1 - np.log(ratio)).mean()), FLOOR)


def is_tried(measured: Measured, stage: Stage) -> bool:
    """Whether steps of any signs would leave so much less than falling ones that a hump is tried."""
    left = stage.system.left
    return measured.present * log((left + stage.more) / left) > HUMP_TRIED * log(measured.present)


def is_better(measured: Measured, before: Stage, after: Stage) -> bool:
    """Whether a hump is better than a falling list, by the test that the manual states."""
    ratio = deviance(measured, before) / deviance(measured, after)
    return measured.present * log(ratio) > HUMP_TEST * log(measured.present)


def listed(stage: Stage) -> NDArray[np.float64]:
    """The coefficients of steps: the sums from the last, each at least a thousandth. Sums of numbers of one sign are
    formed one after the other, so that no rounding turns a fall into a rise."""
    return np.asarray(np.maximum(np.cumsum(stage.steps[::-1])[::-1], 0) + LEAST_COEFFICIENT)


def shaped(part: Part, widths: NDArray[np.int32], shape: Shape) -> NDArray[np.float64]:
    """The coefficients of a part in a shape other than "free", in thousandths of a millimetre and not yet rounded.

    Parameters
    ----------
    part : Part
    widths : ndarray of int32
        Of its rings, in thousandths of a millimetre; 0 is an absent ring.
    shape : {"auto", "falling", "hump"}

    Raises
    ------
    Unsolved
        If the solver does not come to an end.

    Examples
    --------
    >>> from walzhik.fit_design import design
    >>> from walzhik.space import Space
    >>> part = design(Space([0, 2], [1], []), 0, 3).parts[0]
    >>> shaped(part, np.array([3000, 2000, 1000]), "auto").round()
    array([3000., 1000.])
    >>> shaped(part, np.array([1000, 2000, 3000]), "falling").round()
    array([2000., 2000.])
    """
    is_present = widths != 0
    above = np.where(is_present, widths - float(LEAST_COEFFICIENT), 0.0)
    measured = Measured(part, above, is_present, int(np.count_nonzero(widths)))
    stage = falling(measured)
    if shape == "hump" or (shape == "auto" and is_tried(measured, stage)):
        other = hump(measured, stage)
        if shape == "hump" or is_better(measured, stage, other):
            stage = other
    return listed(stage)


def free(
    orthogonal: NDArray[np.float64], triangular: NDArray[np.float64], widths: NDArray[np.int32]
) -> NDArray[np.float64]:
    """The coefficients of plain least squares over a factored matrix, each at least a thousandth."""
    from scipy.optimize import nnls

    try:
        above, _ = nnls(triangular, orthogonal.T @ (widths - float(LEAST_COEFFICIENT)))
    except RuntimeError as error:
        raise Unsolved(f"The least-squares solver does not come to an end with these widths ({error}).") from error
    return np.asarray(LEAST_COEFFICIENT + above)


def is_determined(matrix: NDArray[np.float64], is_present: NDArray[np.bool_]) -> bool:
    """Whether the present rings of a matrix whose rings are all needed determine the coefficients."""
    squares = matrix[is_present].T @ matrix[is_present]
    try:
        pivots = np.linalg.cholesky(squares).diagonal()
        if pivots.min() > WELL_APART * pivots.max():
            return True
    except np.linalg.LinAlgError:
        pass
    return is_independent(matrix[is_present])
