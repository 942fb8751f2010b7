"""Draws the manual's picture of one simulated core with the default fit, that of release 2.0, and the curve that is true.

    PYTHONPATH=python/src:docs/src /usr/bin/python3 docs/src/picture_fit.py OUT.svg
"""

from __future__ import annotations

import sys
from pathlib import Path

import numpy as np
from benchmark_fit import by_default, by_former, core
from matplotlib.figure import Figure

from walzhik.limits import PER_MM
from walzhik.plot import BLACK, BLUE, CURVE_HEIGHT, GREY, LINE_ALPHA, PAD, PALE, THIN, VERMILION, WIDE, _style, rendered

SEED, FAMILY = 12, "exponential"
SHOWN = 110  # rings


def picture() -> Figure:
    """The picture: widths as dots, the three curves over them."""
    drawn = core(np.random.default_rng(SEED), FAMILY)
    rings = np.arange(1, len(drawn.widths) + 1)
    widths = np.where(drawn.widths == 0, np.nan, drawn.widths / PER_MM)
    with _style():
        made = Figure(figsize=(WIDE, CURVE_HEIGHT), layout="constrained")
        made.get_layout_engine().set(w_pad=PAD, h_pad=PAD)
        panel = made.subplots()
        panel.grid(axis="y", color=PALE, linewidth=THIN)
        panel.set_axisbelow(True)
        thin = {"color": BLUE, "linewidth": THIN, "alpha": LINE_ALPHA, "marker": "o", "markersize": 2.2}
        panel.plot(rings, widths, label="measured", gid="widths-0", **thin)
        for name, curve, colour, dashes in (
            ("truth", drawn.curve, GREY, (0, (1, 1.5))),
            ("release 2.0", by_former(drawn.widths), VERMILION, (0, (6, 3))),
            ("default", by_default(drawn.widths), BLACK, "-"),
        ):
            panel.plot(rings, curve, label=name, color=colour, linewidth=2.0, linestyle=dashes, gid=f"curve-{name}")
        panel.set_xlim(1, SHOWN)
        panel.set_ylim(0, float(np.nanmax(widths[:SHOWN])) * 1.06)
        panel.set_xlabel("ring")
        panel.set_ylabel("width, mm")
        panel.legend(loc="lower center", bbox_to_anchor=(0.5, 1.0), ncols=4, borderaxespad=0.2)
    return made


def main() -> int:
    Path(sys.argv[1]).write_bytes(rendered(picture(), "png" if sys.argv[1].endswith(".png") else "svg"))
    return 0


if __name__ == "__main__":
    sys.exit(main())
