"""Times scipy's BSpline on the spaces and positions that docs/src/benchmark.rs writes to standard input.

Each call is three lines: degree and order, the breakpoints, the positions in
256ths. For each it prints the least time in microseconds of one ready-built
curve of floats. The program stands outside the proofs and works nothing out
for them.
"""

import sys
from time import perf_counter
from typing import Any

try:
    import numpy
    from scipy.interpolate import BSpline  # type: ignore[import]
except ImportError:
    print("bspline_speed: numpy or scipy is missing; the Debian package python3-scipy has both", file=sys.stderr)
    sys.exit(2)

ROUNDS = 201
MICROSECONDS = 1e6
FINE = 256
SEED = 14
COEFFICIENT_LIMIT = 1_000_000


def curve_of(degree: int, order: int, breaks: list[int]) -> BSpline:
    """A curve over these breakpoints, with the order's continuity at each inner one.

    Examples
    --------
    >>> len(curve_of(3, 1, [0, 10, 20]).c)
    6
    """
    ends = degree + 1
    inner = [knot for knot in breaks[1:-1] for _ in range(degree - order)]
    knots = numpy.array([breaks[0]] * ends + inner + [breaks[-1]] * ends, dtype=float)
    coefficients = numpy.random.default_rng(SEED).uniform(-COEFFICIENT_LIMIT, COEFFICIENT_LIMIT, len(knots) - ends)
    return BSpline(knots, coefficients, degree)


def least_time(curve: BSpline, positions: "numpy.ndarray[Any, Any]") -> float:
    """The least time of one call on all positions, in microseconds."""
    times = []
    for _ in range(ROUNDS):
        start = perf_counter()
        curve(positions)
        times.append(perf_counter() - start)
    return min(times) * MICROSECONDS


def main() -> int:
    """Read the calls and print a time for each."""
    lines = sys.stdin.read().splitlines()
    for kind, breaks, positions in zip(lines[0::3], lines[1::3], lines[2::3]):
        degree, order = map(int, kind.split())
        curve = curve_of(degree, order, [int(knot) for knot in breaks.split()])
        print(f"{least_time(curve, numpy.array(positions.split(), dtype=float) / FINE):.1f}")
    return 0


if __name__ == "__main__":
    sys.exit(main())
