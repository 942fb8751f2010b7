#!/usr/bin/env python3
"""Random series with what Python gives for them, coefficients, values and indices: r/tests/testthat/fits/series.txt, a series a line,
to which R's tests hold R's answers.

    PYTHONPATH=python/src /usr/bin/python3 tests/r_series.py            says whether the file is in step; status 1 if not
    PYTHONPATH=python/src /usr/bin/python3 tests/r_series.py --write    makes it again

Python's package and the built libraries are needed.
"""
import sys
from pathlib import Path

import numpy as np

from walzhik.fit import SHAPES, fit, template

sys.path.insert(0, str(Path(__file__).resolve().parent))
from r_made import in_step  # noqa: E402

KEPT = Path(__file__).resolve().parent.parent / "r" / "tests" / "testthat" / "fits" / "series.txt"
COUNT, SEED = 200, 51
FEWEST_RINGS, MOST_RINGS = 12, 300
MOST_WIDTH = 99_999


def widths_of(random, rings):
    """Falling, level, humped or released widths with noise, and some absent rings."""
    at = np.arange(rings) / (rings - 1)
    kinds = (1 - 0.8 * at, np.ones(rings), 0.2 + at * np.exp(1 - at / 0.15), np.exp(-4 * at) + 0.3, np.where(at > 0.6, 2, 1))
    curve = random.uniform(200, 4_000) * kinds[random.integers(len(kinds))]
    widths = np.clip(np.round(curve * random.lognormal(0, 0.3, rings)), 1, MOST_WIDTH).astype(np.int64)
    if random.random() < 0.4:
        widths[1:-1][random.random(rings - 2) < 0.05] = 0
    return widths.tolist()


def line_of(place, random):
    rings = int(np.exp(random.uniform(np.log(FEWEST_RINGS), np.log(MOST_RINGS))))
    first = int(random.integers(-900, 1_900))
    widths = widths_of(random, rings)
    shape = SHAPES[place % len(SHAPES)]
    made = fit(template(rings, first), widths, first, shape)
    values, indices = made.rings
    lists = {"widths": widths, "coefs": made.coefficients.tolist(), "values": values.tolist(), "indices": indices.tolist()}
    return " ".join([f"shape={shape}", f"first={first}", *(f"{name}={','.join(map(str, each))}" for name, each in lists.items())])


def text():
    random = np.random.default_rng(SEED)
    return "".join(f"{line_of(place, random)}\n" for place in range(COUNT))


if __name__ == "__main__":
    sys.exit(in_step(KEPT, text(), Path(__file__).name))
