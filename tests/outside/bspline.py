"""An outside check: curves of one degree against scipy's B-splines.

usage: bspline.py [--driver DRIVER] [--count N] [--seed S]

A space of one degree without inner discontinuities is a B-spline space whose
knots repeat degree minus order times at each join. scipy knows nothing of
the specification, so its agreement shows that both programs build the right space.
Without a driver the rational program's values are tested, else the engine's.
"""

import argparse
import subprocess
import sys
from pathlib import Path
from random import Random, SystemRandom

sys.path.insert(0, str(Path(__file__).resolve().parent.parent / "reference"))

try:
    from scipy.interpolate import BSpline
except ImportError:
    print("bspline: scipy is missing; the Debian package python3-scipy has it")
    sys.exit(2)

from generate import call_on
from limits import MOST_ORDER, UNIT
from protocol import call_line, printed_values
from random_spaces import any_degree, breaks_from, length_list, segment_count
from reading import segment_of
from walzhik_reference import Space, by_column, most_weights, part_coefs

CURVES = 3_000
# Floating point errors on curves of size up to 256,000,000 stay far below this.
TOLERANCE = 1e-3


def one_degree_lists(rng):
    segments = segment_count(rng)
    degree = any_degree(rng)
    orders = [rng.randint(0, min(MOST_ORDER, degree - 1)) for _ in range(segments - 1)]
    return breaks_from(rng, length_list(rng, segments)), [degree] * segments, orders


def answered_calls(rng, count):
    """Curve calls of one degree that are answered, with their outcomes."""
    found = []
    while len(found) < count:
        call = call_on(rng, one_degree_lists(rng), "curve")
        outcome = call.outcome()
        if outcome.values:
            found.append((call, outcome))
    return found


def knots(space):
    degree = space.degrees[0]
    inner = [point for point, order in zip(space.breaks[1:], space.orders)
             for _ in range(degree - order)]
    ends = degree + 1
    return [space.breaks[0]] * ends + inner + [space.breaks[-1]] * ends


def scipy_values(space, coefs, positions):
    spline = BSpline([float(knot) for knot in knots(space)],
                     [float(UNIT * coef) for coef in coefs], space.degrees[0])
    return spline([position / UNIT for position in positions])


def fault(call, outcome, values):
    """The first value that scipy's curve does not allow, as text, or None."""
    space = Space(call.breaks, call.degrees, call.orders)
    columns = by_column(space, outcome.rows)
    slack = [(most_weights(space, columns, segment) + space.degrees[segment]) / 2
             for segment in range(len(space.degrees))]
    exact = zip(*(scipy_values(space, coefs, call.positions) for coefs in part_coefs(call.coefs)))
    for position, pair, curves in zip(call.positions, values, exact):
        allowed = slack[segment_of(space, position)] + TOLERANCE
        if any(abs(curve - value) > allowed for value, curve in zip(pair, curves)):
            return f"at {position}: values {tuple(pair)}, scipy {curves}"
    return None


def engine_values(driver, calls):
    text = "".join(call_line(call) + "\n" for call in calls)
    run = subprocess.run([driver], input=text, capture_output=True, text=True, check=True)
    lines = run.stdout.splitlines()
    return [printed_values(call, line) for call, line in zip(calls, lines, strict=True)]


def tested_values(driver, found):
    if driver is None:
        return [outcome.values for _, outcome in found]
    return engine_values(driver, [call for call, _ in found])


def main():
    parser = argparse.ArgumentParser(description="check curves of one degree against scipy")
    parser.add_argument("--driver", default=None)
    parser.add_argument("--count", type=int, default=CURVES)
    parser.add_argument("--seed", type=int, default=None)
    chosen = parser.parse_args()
    seed = SystemRandom().randrange(2 ** 32) if chosen.seed is None else chosen.seed
    print(f"bspline: seed {seed}")
    found = answered_calls(Random(seed), chosen.count)
    failed = 0
    for (call, outcome), values in zip(found, tested_values(chosen.driver, found)):
        wrong = fault(call, outcome, values)
        if wrong:
            failed += 1
            print(f"call: {call_line(call)}\n  {wrong}")
    tested = sum(len(call.positions) for call, _ in found)
    print(f"bspline: {tested} pairs of values of {len(found)} spaces tested")
    print(f"bspline: {len(found) - failed} passed, {failed} failed")
    return 1 if failed else 0


if __name__ == "__main__":
    sys.exit(main())
