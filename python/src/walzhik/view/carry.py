"""Where the handles of coefficients stand, and coefficients for a space that has changed: the curve that was there, as
nearly as the new space can hold it. Both only propose and place; what the coefficients give is the engine's to say.
"""

from __future__ import annotations

from math import lcm
from typing import TYPE_CHECKING

import numpy as np

from ..errors import Refused
from ..fit import LEAST_COEFFICIENT, bernstein
from ..limits import DEGREES, MOST_COEFFICIENT, UNIT
from ..recover import recover

if TYPE_CHECKING:
    from numpy.typing import NDArray

    from ..curve import Curve
    from ..space import Space

SCALE = lcm(*range(DEGREES[0], DEGREES[1] + 1))  # makes whole numbers of the places of ordinates
READ_TIMES = 4  # positions read for each ordinate of a segment


def ordinate_places(space: Space) -> NDArray[np.int64]:
    """The rings over which the Bernstein ordinates stand, times `SCALE`."""
    ends = zip(space.degrees.tolist(), space.breaks.tolist(), space.breaks[1:].tolist())
    found = [np.arange(degree + 1) * (SCALE * (end - start) // degree) + SCALE * start for degree, start, end in ends]
    return np.asarray(np.concatenate(found), dtype=np.int64)


def handle_places(space: Space) -> list[float]:
    """The rings where the handles of coefficients stand: as coefficients they give the curve that is the ring itself.

    Examples
    --------
    >>> from walzhik import Space
    >>> handle_places(Space([0, 20, 60], [2, 2], [1]))
    [0.0, 10.0, 40.0, 60.0]
    """
    places = ordinate_places(space)
    try:
        return [float(UNIT * place / SCALE) for place in recover(space, places)]
    except Refused:  # fractions too large to be exact: near enough for a place on a screen
        solved, *_ = np.linalg.lstsq(space.matrix().T, places / SCALE, rcond=None)
        return [float(place) for place in solved]


def carried(old: Curve, space: Space) -> list[tuple[int, int]]:
    """Coefficients over a space for the curve that was there: least squares, rounded to whole thousandths.

    A curve that the space holds is kept, but for the rounding. Where all old coefficients are above zero, the new ones
    are too.

    Examples
    --------
    >>> from walzhik import Curve, Space
    >>> carried(Curve(Space([0, 20, 60], [2, 2], [1]), [2400, 1600, 1000, 900]), Space([0, 20, 60], [2, 2], [0]))
    [(2400, 2400), (1600, 1600), (1400, 1400), (1000, 1000), (900, 900)]
    """
    weights, rows, heights, column = space.matrix(), [], [], 0
    least, most = (UNIT * int(end) for end in old.space.breaks[[0, -1]])
    for degree, start, end in zip(space.degrees.tolist(), space.breaks.tolist(), space.breaks[1:].tolist()):
        count = READ_TIMES * (degree + 1)
        positions = UNIT * start + UNIT * (end - start) * (2 * np.arange(count) + 1) // (2 * count)
        across = (positions / UNIT - start) / (end - start)
        rows.append(bernstein(degree, across) @ weights[:, column : column + degree + 1].T)
        heights.append(old.values(np.clip(positions, least, most).astype(np.int32)) / UNIT)
        column += degree + 1
    solved, *_ = np.linalg.lstsq(np.concatenate(rows), np.concatenate(heights), rcond=None)
    floor = LEAST_COEFFICIENT if old.coefficients.min() >= LEAST_COEFFICIENT else -MOST_COEFFICIENT
    rounded = np.clip(np.floor(solved + 1 / 2), floor, MOST_COEFFICIENT).astype(np.int64)
    return [(early, late) for early, late in rounded.tolist()]
