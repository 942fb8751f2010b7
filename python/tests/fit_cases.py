"""Random series with the fits that Python gives them, as R's tests read them: r/tests/testthat/fits/fits.txt, a series a line.

    PYTHONPATH=python/src:python/tests /usr/bin/python3 python/tests/fit_cases.py    makes the file again
"""

from __future__ import annotations

from pathlib import Path

import numpy as np

from walzhik.fit import SHAPES, Fit, Shape, Unfittable, fit, template

KEPT = Path(__file__).resolve().parents[2] / "r" / "tests" / "testthat" / "fits" / "fits.txt"
COUNT, SEED = 120, 47
MOST_RINGS, MOST_WIDTH = 520, 99_999


def drawn(random: np.random.Generator) -> tuple[int, list[int]]:
    """The first ring and the widths of a series: falling, level, rising, humped or released, with noise and absent rings."""
    rings = int(random.integers(2, MOST_RINGS) if random.random() < 0.5 else random.integers(80, 260))
    at = np.arange(rings) / max(rings - 1, 1)
    kinds = (1 - 0.8 * at, np.ones(rings), 0.3 + at, 0.2 + at * np.exp(1 - at / 0.15), np.exp(-4 * at) + 0.3)
    curve = random.uniform(300, 4_000) * kinds[random.integers(len(kinds))]
    if random.random() < 0.15:
        curve = curve * np.where(at > 0.6, 2, 1)
    widths = np.clip(np.round(curve * random.lognormal(0, 0.25, rings)), 1, MOST_WIDTH).astype(np.int64)
    if random.random() < 0.3:
        widths[random.random(rings) < 0.03] = 0
    return int(random.integers(-500, 1_900)), widths.tolist()


def cases() -> list[tuple[Shape, int, list[int], list[int]]]:
    """The shape that is asked for, the first ring, the widths and the scars of each series: two in three by the default."""
    random = np.random.default_rng(SEED)
    made: list[tuple[Shape, int, list[int], list[int]]] = []
    while len(made) < COUNT:
        first, widths = drawn(random)
        shape: Shape = SHAPES[len(made) % 4] if len(made) % 3 == 2 else "auto"
        scars = [first + len(widths) // 2] if len(made) % 10 == 9 and len(widths) > 60 else []
        if np.count_nonzero(widths) > 12:
            made.append((shape, first, widths, scars))
    return made


def fitted(shape: Shape, first: int, widths: list[int], scars: list[int]) -> Fit | None:
    try:
        return fit(template(len(widths), first, scars), widths, first, shape)
    except Unfittable:
        return None


def text() -> str:
    """A line a series: shape, first, scars, widths, coefs and shapes, with blanks between and commas within."""
    lines = []
    for shape, first, widths, scars in cases():
        made = fitted(shape, first, widths, scars)
        if made is not None:
            lists = (scars, widths, made.coefficients.tolist(), made.shapes)
            joined = [",".join(map(str, each)) for each in lists]
            names = ("scars", "widths", "coefs", "shapes")
            told = [f"{name}={each}" for name, each in zip(names, joined)]
            lines.append(" ".join([f"shape={shape}", f"first={first}", *told]))
    return "\n".join(lines) + "\n"


if __name__ == "__main__":
    KEPT.parent.mkdir(parents=True, exist_ok=True)
    KEPT.write_text(text(), encoding="ascii")
