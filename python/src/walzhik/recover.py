"""Coefficients from a supplier's ordinates: exactly, by the engine's proved call, or the nearest ones by least squares
where no exact ones are wanted or there are none. The nearest ones are worked out in floating point and are not proved.
"""

from __future__ import annotations

from fractions import Fraction
from typing import TYPE_CHECKING

import numpy as np

from ._engine import lent, library, listed, pointer
from .errors import Refused
from .limits import UNIT
from .words.lists import refusal

if TYPE_CHECKING:
    from numpy.typing import NDArray

    from ._engine import Wholes
    from .space import Space

MISSED, TOO_LARGE = 19, 20  # the numbers of refusals after which a nearest curve still has a meaning


def recover(space: Space, ordinates: Wholes) -> list[Fraction]:
    """The exact coefficients that give the ordinates of one wood part's curve.

    Parameters
    ----------
    space : Space
    ordinates : sequence of int, one for each column
        The Bernstein ordinates of all segments in order, degree + 1 for each, in 256ths of a thousandth of a
        millimetre.

    Returns
    -------
    list of Fraction, length n
        In thousandths of a millimetre. No other n fractions give these ordinates.

    Raises
    ------
    Refused
        With number 19 and the join where the ordinates miss a condition, 18 for an ordinate out of range, 20 for a
        fraction that is too large to be worked out.

    Examples
    --------
    >>> from walzhik import Space
    >>> space = Space([0, 20, 60], [2, 2], [1])
    >>> [str(each) for each in recover(space, [614400, 409600, 358400, 358400, 256000, 230400])]
    ['2400', '1600', '1000', '900']
    """
    given = listed(ordinates, "ordinates")
    tops, bottoms = (np.empty(given.size, dtype=np.int64) for _ in (0, 1))
    reply = library.walzhik_coefficients(
        *space._lent,
        pointer(given),
        given.size,
        *lent.weights,
        pointer(tops, "int64_t[]"),
        tops.size,
        pointer(bottoms, "int64_t[]"),
        bottoms.size,
    )
    if reply.number:
        lists = space.lists()
        lists.ordinates = [int(number) for number in ordinates]
        raise refusal(lists, reply.number, reply.place)
    pairs = zip(tops[: reply.count].tolist(), bottoms[: reply.count].tolist())
    return [Fraction(top, UNIT * bottom) for top, bottom in pairs]


def nearest(space: Space, ordinates: Wholes) -> NDArray[np.int32]:
    """The whole coefficients nearest to ordinates: least squares over the exact weights, rounded.

    They need not give the ordinates; `Curve.ordinates` says what they give.

    Parameters
    ----------
    space : Space
    ordinates : sequence of int, one for each column
        In 256ths of a thousandth of a millimetre.

    Returns
    -------
    ndarray of int32, shape (n,)
        In thousandths of a millimetre.

    Raises
    ------
    Refused
        With number 18 if the engine refuses an ordinate or their count.

    Examples
    --------
    >>> from walzhik import Space
    >>> space = Space([0, 20, 60], [2, 2], [1])
    >>> nearest(space, [614400, 409600, 358400, 358401, 256000, 230400])
    array([2400, 1600, 1000,  900], dtype=int32)
    """
    try:
        recover(space, ordinates)
    except Refused as error:
        if error.number not in (MISSED, TOO_LARGE):
            raise
    solved, *_ = np.linalg.lstsq(space.matrix().T, listed(ordinates, "ordinates") / UNIT, rcond=None)
    rounded: NDArray[np.int32] = np.floor(solved + 1 / 2).astype(np.int32)
    return rounded
