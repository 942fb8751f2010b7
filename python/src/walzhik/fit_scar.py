"""Where a fitted curve leaves many rings together on one side: a hint at a scar, as after a thinning, which neither a
falling curve nor one hump can follow. A hint is a guess for a person to judge, and is not proved.
"""

from __future__ import annotations

from math import log, sqrt
from typing import TYPE_CHECKING, NamedTuple

import numpy as np

from .errors import Refused
from .fit import Fit, fit
from .fit_shape import FLOOR
from .fit_template import Unfittable, template
from .limits import UNIT
from .words.numbers import count

if TYPE_CHECKING:
    from numpy.typing import NDArray

LENGTHS = (
    15,
    20,
    30,
    45,
    68,
    100,
    150,
    225,
    340,
    500,
    750,
    1_000,
)  # rings of a run, each some half longer than the last
ONE_SIDE = 4.5  # standard errors: so far from the curve must the mean of a run be
SCAR_TEST = 6.0  # times ln n: so much must n ln of the ratio of deviances be with a scar
NEAR = 6  # rings: how far from the ends of a run a scar is looked for
LEAST_PART = 10  # rings on each side of a scar


class Hint(NamedTuple):
    """A scar that would make a curve better.

    Attributes
    ----------
    ring : int
        The last ring before it, as `template` takes it.
    rings : int
        How many rings together lie on one side of the curve without it.
    is_above : bool
        Whether they lie above it.
    """

    ring: int
    rings: int
    is_above: bool

    def sentence(self) -> str:
        """What is seen, and the question that it raises.

        Examples
        --------
        >>> Hint(1850, 45, True).sentence()
        'Some 45 rings together lie above the curve: is there a scar after ring 1850?'
        """
        side = "above" if self.is_above else "below"
        return (
            f"Some {count(self.rings, 'ring')} together lie {side} the curve: is there a scar after ring {self.ring}?"
        )

    def words(self) -> str:
        """The same for the command, with the option that sets the scar."""
        return f"{self.sentence()} --scar {self.ring} sets it."


class Run(NamedTuple):
    """Rings from `begin` to before `end` whose mean is so many standard errors from the curve."""

    begin: int
    end: int
    distance: float


def longest(deviations: NDArray[np.float64]) -> Run:
    """The run whose mean deviation is farthest from zero, in standard errors as ring follows ring."""
    error = max(float(np.std(np.diff(deviations))) / sqrt(2), FLOOR)
    sums = np.concatenate([[0.0], np.cumsum(deviations)])
    best = Run(0, 0, 0.0)
    for length in LENGTHS:
        if 2 * length > deviations.size:
            break
        distances = (sums[length:] - sums[:-length]) / (sqrt(length) * error)
        at = int(np.abs(distances).argmax())
        if abs(distances[at]) > abs(best.distance):
            best = Run(at, at + length, float(distances[at]))
    return best


def deviance(fitted: Fit) -> float:
    """The mean of r - 1 - ln r over the present rings, r being width over the engine's curve."""
    present = fitted.widths != 0
    ratio = UNIT * fitted.widths[present] / fitted.values()[present]
    return max(float((ratio - 1 - np.log(ratio)).mean()), FLOOR)


def hint(fitted: Fit) -> Hint | None:
    """A scar that a fit by a template without one lacks, or None.

    Examples
    --------
    >>> from walzhik.fit import fit, template
    >>> widths = [1500 + 100 * (-1) ** ring for ring in range(60)] + [3000 + 200 * (-1) ** ring for ring in range(60)]
    >>> hint(fit(template(120, 1801), widths, 1801))
    Hint(ring=1860, rings=20, is_above=False)
    """
    deviations = np.where(fitted.widths != 0, UNIT * fitted.widths / fitted.values() - 1, 0.0)
    run = longest(deviations) if deviations.size > 2 * LEAST_PART else Run(0, 0, 0.0)
    if abs(run.distance) < ONE_SIDE:
        return None
    before, present = deviance(fitted), int(np.count_nonzero(fitted.widths))
    left = {ring: with_scar(fitted, ring) for ring in candidates(run, deviations.size)}
    best = min(left, key=lambda ring: left[ring], default=None)
    if best is None or present * log(before / min(left[best], before)) <= SCAR_TEST * log(present):
        return None
    return Hint(fitted.first + best, run.end - run.begin, run.distance > 0)


def candidates(run: Run, rings: int) -> list[int]:
    """The rings, from 0, near the ends of a run, as far as both sides keep rings enough."""
    near = {end - 1 + away for end in (run.begin, run.end) for away in range(-NEAR, NEAR + 1)}
    return sorted(ring for ring in near if LEAST_PART <= ring + 1 <= rings - LEAST_PART)


def with_scar(fitted: Fit, ring: int) -> float:
    """The deviance of the same widths with a scar after a ring, counted from 0; infinite where there is no such fit."""
    try:
        space = template(fitted.widths.size, fitted.first, [fitted.first + ring])
        return deviance(fit(space, fitted.widths, fitted.first))
    except (Unfittable, Refused):
        return float("inf")
