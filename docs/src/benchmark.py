"""Times the daily job, 2,000 series of 200 rings in one file: reading, fitting and writing the table of indices by the
command, with one and the same fit, a template's plain one and the default, against the same job with NumPy and SciPy
alone; the table by a given curve; and index calls from arrays to arrays against the same calls from C.
docs/PERFORMANCE.md has its figures. Both sides of a ratio are timed in one run, in turns, by processor time.

    PYTHONPATH=python/src /usr/bin/python3 docs/src/benchmark.py
    PYTHONPATH=python/src /usr/bin/python3 docs/src/benchmark.py quick    # a few series: that all of it still runs
"""

import contextlib
import csv
import io
import statistics
import subprocess
import sys
import tempfile
import time
from pathlib import Path

import numpy as np
from scipy.interpolate import BSpline
from scipy.optimize import nnls

from walzhik import Curve, Space, sheet, tucson
from walzhik.cli import cli
from walzhik.dividing import as_table, divided
from walzhik.fit import fit, template

ROOT = Path(__file__).resolve().parent.parent.parent
QUICK = "quick" in sys.argv[1:]
SERIES, RINGS, SEED = 20 if QUICK else 2_000, 200, 1
ROUNDS = 1 if QUICK else 5
CALLS = 2_000  # index calls of one timing
NAME, HEAD, FIELD = 8, 12, 6  # columns of a Tucson line
HUNDREDTHS = 999  # the closing field of a series in hundredths
FORMER, FORMER_DEGREES = (0, 10, 30, 80), (3, 3, 2, 2)  # release 2.0's template: starts and degrees
DEGREE, INNER = 3, (10, 30, 80, 130)  # of the B-splines: cubic, with as many coefficients as release 2.0's template
# What the command is asked for: the very fit of the B-splines, plain least squares over the template, or what it does unasked.
SAME = "--fit --shape free --each-first 0 --breaks 0,10,30,80,130,199 --degrees 3,3,3,3,3 --orders 2,2,2,2".split()
FITS = {"one and the same fit": SAME, "plain fits of templates": ["--fit", "--shape", "free"], "the default": ["--fit"]}
NEAR = 0.0006  # millimetres: the command rounds coefficients to whole thousandths
CURVE = b"breaks=1000,2000\ndegrees=1\norders=\ncoefs=1500:1500,700:700\nat=\n"  # over all years of the series


def made_up_series():
    """Series that fall from wide to narrow rings, with noise; one ring in a thousand is absent."""
    random = np.random.default_rng(SEED)
    rings = np.arange(RINGS)
    for number in range(SERIES):
        growth = 700 + 2_500 * np.exp(-rings / random.uniform(20, 60))
        widths = np.maximum(growth * random.lognormal(0, 0.25, RINGS), 1).astype(np.int32)
        widths[random.random(RINGS) < 1 / 1_000] = 0
        yield tucson.Series(f"S{number:04}", int(random.integers(1_000, 1_800)), widths)


def by_command(path, out, asked):
    """The whole job by the command."""
    with contextlib.redirect_stderr(io.StringIO()):
        cli.main(["indices", str(path), *asked, "-o", str(out)], standalone_mode=False)


def plain_read(path):
    """A Tucson file as a plain script reads it: no line is doubted."""
    series = {}
    for line in path.read_text(encoding="ascii").splitlines():
        name = line[:NAME]
        fields = [int(line[at : at + FIELD]) for at in range(HEAD, len(line), FIELD)]
        if name in series:
            series[name][1].extend(fields)
        else:
            series[name] = (int(line[NAME:HEAD]), fields)
    for name, (first, fields) in series.items():
        scale = 10 if fields.pop() == HUNDREDTHS else 1
        yield name.rstrip(), first, scale * np.array(fields)


def plain_fit(widths):
    """A cubic B-spline by least squares, no coefficient below a thousandth."""
    rings = np.arange(widths.size, dtype=float)
    knots = np.array([0] * (DEGREE + 1) + list(INNER) + [widths.size - 1] * (DEGREE + 1), dtype=float)
    basis = BSpline.design_matrix(rings, knots, DEGREE).toarray()
    present = widths > 0
    above, _ = nnls(basis[present], widths[present] - 1.0)
    return BSpline(knots, above + 1, DEGREE)(rings)


def by_numpy(path, out):
    """The same job with NumPy and SciPy alone."""
    lines = ["series,year,width_mm,curve_mm,index\n"]
    for name, first, widths in plain_read(path):
        curve = plain_fit(widths)
        indices = np.floor(1_000 * widths / curve).astype(int)
        rows = zip(range(first, first + widths.size), widths.tolist(), curve.tolist(), indices.tolist())
        for year, width, value, index in rows:
            lines.append(f"{name},{year},{width / 1_000:.3f},{value / 1_000:.6f},{index if width else ''}\n")
    out.write_text("".join(lines), encoding="ascii")


def timed(call, *arguments):
    start = time.process_time()
    call(*arguments)
    return time.process_time() - start


def in_turns(*calls):
    """The least times of calls, taken in turns, in seconds: other work on the machine only adds."""
    times = [[timed(*call) for call in calls] for _ in range(ROUNDS)]
    return [min(each) for each in zip(*times)]


def check_same(one, other):
    """End badly unless two tables have the same rings and widths, and curves that differ by rounding alone."""
    with open(one, newline="", encoding="ascii") as left, open(other, newline="", encoding="ascii") as right:
        for mine, plain in zip(csv.reader(left), csv.reader(right), strict=True):
            if mine[:3] != plain[:3] or mine[3] != plain[3] and abs(float(mine[3]) - float(plain[3])) > NEAR:
                sys.exit(f"two fits: {mine} and {plain}")


def jobs(folder, path):
    """The job with each of the command's fits against NumPy and SciPy alone, and with a given curve."""
    curve, one, other = folder / "a.sheet", folder / "a.csv", folder / "b.csv"
    curve.write_bytes(CURVE)
    by_command(path, one, SAME)
    by_numpy(path, other)
    check_same(one, other)
    asked = {**FITS, "a given curve": ["--curve", str(curve)]}
    *command, plain = in_turns(*((by_command, path, one, each) for each in asked.values()), (by_numpy, path, other))
    print(f"{SERIES:,} series of {RINGS} rings: NumPy and SciPy alone {plain:.2f} s")
    for what, seconds in zip(asked, command):
        print(f"  the command, {what}: {seconds:.2f} s, ratio {seconds / plain:.2f}")


def former_fit(series):
    """A fit as release 2.0 made it: its template for 200 rings, plain least squares."""
    breaks = [series.first + start for start in (*FORMER, RINGS - 1)]
    return fit(Space(breaks, FORMER_DEGREES, [1] * (len(FORMER) - 1)), series.widths, series.first, "free")


def fits(read, by):
    for each in read:
        by(each)


def fit_times(path):
    """Seconds that the fits of all series take, by the default and as release 2.0 made them, in turns."""
    read = tucson.read(path.read_bytes())
    return in_turns(
        (fits, read, lambda each: fit(template(RINGS, each.first), each.widths, each.first)), (fits, read, former_fit)
    )


def steps_of(path):
    """Where the command's time goes, in seconds."""
    text = path.read_bytes()
    cleaned = tucson.clean(text)
    read = tucson.read_strict(cleaned.text)
    curve = sheet.read(CURVE).curve()
    done = [divided(each, curve, each.first) for each in read]
    steps = {
        "the cleaning call": lambda: tucson.clean(text),
        "the strict reader": lambda: tucson.read_strict(cleaned.text),
        "the index calls": lambda: [divided(each, curve, each.first) for each in read],
        "the lines of the table": lambda: as_table(done),
        "fitting by default": lambda: [fit(template(RINGS, each.first), each.widths, each.first) for each in read],
    }
    return dict(zip(steps, in_turns(*((step,) for step in steps.values()))))


def compiled(folder):
    """The program that makes the same index calls from C."""
    program = folder / "calls"
    archives = sorted(map(str, (ROOT / "target" / "staticlib").glob("libwalzhik*.a")))
    source = ROOT / "docs" / "src" / "index_calls.c"
    command = ["cc", "-std=c11", "-O2", f"-I{ROOT / 'include'}", str(source), *archives, "-o", str(program)]
    subprocess.run(command, check=True)
    return program


def python_calls(curve, widths, first):
    for _ in range(CALLS):
        curve.indices(widths, first)


def index_calls(folder, series):
    """Seconds an index call takes from Python and from C, over the same lists."""
    space = template(RINGS, series.first)
    curve = Curve(space, fit(space, series.widths, series.first).coefficients)
    lists = [space.breaks, space.degrees, space.orders, curve.coefficients.ravel(), series.widths]
    given = "\n".join(" ".join(map(str, [len(each), *each.tolist()])) for each in lists)
    program, text = compiled(folder), f"{CALLS} {series.first}\n{given}\n".encode()
    python, native = [], []
    for _ in range(ROUNDS):
        python.append(timed(python_calls, curve, series.widths, series.first) / CALLS)
        said = subprocess.run([str(program)], input=text, stdout=subprocess.PIPE, check=True).stdout.split()
        native.append(float(said[0]) / CALLS)
        if [int(index) for index in said[1:]] != curve.indices(series.widths, series.first).tolist():
            sys.exit("C and Python give other indices")
    return statistics.median(python), statistics.median(native)


def main():
    with tempfile.TemporaryDirectory() as name:
        folder = Path(name)
        path = folder / "many.rwl"
        series = list(made_up_series())
        path.write_bytes(tucson.write(series))
        jobs(folder, path)
        for step, seconds in steps_of(path).items():
            print(f"  of it {step}: {seconds:.2f} s")
        now, former = fit_times(path)
        times = f"the default {now:.2f} s, as release 2.0 did it {former:.2f} s, ratio {now / former:.2f}"
        print(f"fits alone: {times}")
        python, native = index_calls(folder, series[0])
        times = f"Python {1e6 * python:.1f} us, C {1e6 * native:.1f} us, ratio {python / native:.2f}"
        print(f"an index call of {RINGS} rings: {times}")


if __name__ == "__main__":
    main()
