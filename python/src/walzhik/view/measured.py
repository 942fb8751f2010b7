"""The measured series beside the curves: the value and the index of each ring that has one, which rings have none and
why, and how close the curve is. Values and indices are the engine's; how close they are is said of its values.
"""

from __future__ import annotations

from collections.abc import Mapping
from math import sqrt
from typing import TYPE_CHECKING, Any

import numpy as np

from .._engine import MOST_POSITIONS
from ..errors import Refused
from ..fit import closeness
from ..limits import UNIT
from ..tucson import Series
from .design import Design, wood_of
from .faults import INDEX, OUTSIDE, told

if TYPE_CHECKING:
    from numpy.typing import NDArray

    from ..curve import Curve

NO_INDEX = -1  # as the engine has it for an absent ring


def runs(wanted: NDArray[np.bool_]) -> list[tuple[int, int]]:
    """Where each run of true entries starts and ends.

    Examples
    --------
    >>> runs(np.array([True, True, False, True]))
    [(0, 2), (3, 4)]
    """
    edges = np.flatnonzero(np.diff(np.concatenate([[False], wanted, [False]]).astype(np.int8)))
    return list(zip(edges[::2].tolist(), edges[1::2].tolist()))


def divisible(curve: Curve, widths: NDArray[np.int32], first: int, side: int) -> NDArray[np.bool_]:
    """Which rings the engine divides: those within the span, and of these the absent ones or those above zero."""
    rings = first + np.arange(widths.size, dtype=np.int64)
    found = (rings >= curve.space.breaks[0]) & (rings <= curve.space.breaks[-1])
    inside = np.flatnonzero(found)
    for start in range(0, inside.size, MOST_POSITIONS):
        part = inside[start : start + MOST_POSITIONS]
        values = curve.values((UNIT * rings[part]).astype(np.int32))[:, side]
        found[part] = (values > 0) | (widths[part] == 0)
    return np.asarray(found, dtype=np.bool_)


def divided(curve: Curve, series: Series, first: int, wood: str) -> dict[str, Any]:
    """The values and indices of a series, ring by ring; of a refused one those of the rings that have one."""
    part, widths = wood_of(wood), np.asarray(series.widths)
    made: dict[str, Any] = {"refusal": None, "faults": []}
    try:
        values, indices = curve.rings(widths, first, part)
        known = np.ones(widths.size, dtype=np.bool_)
    except Refused as error:
        made["refusal"] = told(error, f"series-{wood}")
        if error.number not in (OUTSIDE, INDEX):
            return made
        known = divisible(curve, widths, first, curve.side(part))
        made["faults"] = np.flatnonzero(~known).tolist()
        values, indices = np.zeros(widths.size, np.int32), np.full(widths.size, NO_INDEX, np.int64)
        for start, end in runs(known):
            values[start:end], indices[start:end] = curve.rings(widths[start:end], first + start, part)
    made["values"] = [value if is_known else None for value, is_known in zip(values.tolist(), known.tolist())]
    made["indices"] = indices.tolist()
    return made | {"closeness": how_close(widths[known], values[known])}


def how_close(widths: NDArray[np.int32], values: NDArray[np.int32]) -> dict[str, Any] | None:
    """The root mean square of width less curve in mm, and the share explained, over so many present rings.

    Examples
    --------
    >>> how_close(np.array([1000, 0, 3000]), np.array([256000, 256000, 512000]))
    {'rings': 2, 'root_mean_square': 0.7071067811865476, 'share': 0.5}
    """
    rings = int((widths != 0).sum())
    if not rings:
        return None
    close = closeness(widths, values)
    return {"rings": rings, "root_mean_square": sqrt(close.mean_square), "share": close.share_explained}


def measured(design: Design, curve: Curve | None, series: Mapping[str, Series]) -> list[dict[str, Any]]:
    """The series beside the curves, each with its indices or with why it has none."""
    shown = []
    for wood in design.woods:
        if wood not in design.series:
            continue
        each = series[design.series[wood]]
        start = design.origin.ring_of(each)
        made: dict[str, Any] = {"name": each.name, "wood": wood, "first": start, "year": each.first}
        made |= {"widths": np.asarray(each.widths).tolist(), "indices": None, "values": None, "closeness": None}
        made |= {"refusal": None, "faults": []} if curve is None else divided(curve, each, start, wood)
        shown.append(made)
    return shown
