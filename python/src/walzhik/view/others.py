"""The other series of the file, to be laid under the chosen ones: as many as can be told apart."""

from __future__ import annotations

from collections.abc import Mapping
from typing import Any

import numpy as np

from ..tucson import Series
from .design import Design

MOST_OTHERS = 50


def others(design: Design, series: Mapping[str, Series]) -> dict[str, Any]:
    """The widths of the series that are not chosen, and how many there are beyond those."""
    chosen = {design.series.get(wood) for wood in design.woods}
    rest = [each for each in series.values() if each.name not in chosen]
    shown = [
        {"name": each.name, "first": design.origin.ring_of(each), "widths": np.asarray(each.widths).tolist()}
        for each in rest[:MOST_OTHERS]
    ]
    return {"others": shown, "left": max(0, len(rest) - MOST_OTHERS)}
