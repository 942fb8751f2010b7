"""Holds docs/MANUAL.md, its examples and its pictures against what the program and the command give.

usage: manual.py [--write]

Each sheet and Tucson file in examples/ must be explained as it is kept beside
it, each picture say what the engine says of its sheet, each step of the day's
work give what is kept of it, and what the manual quotes be lines of these
files. --write keeps what the command gives now.
"""

import argparse
import contextlib
import io
import re
import sys
import tempfile
from pathlib import Path

ROOT = Path(__file__).resolve().parent.parent
sys.path[:0] = [str(ROOT / "python" / "src"), str(ROOT / "tests"), str(ROOT / "docs" / "src")]
sys.dont_write_bytecode = True

import picture_fit
from pictures import picture
from walzhik import cli, sheet, tucson
from walzhik import plot
from walzhik._outline import CUBIC, LINE, MOVE, QUADRATIC, outline

EXAMPLES, PICTURES, MANUAL = ROOT / "examples", ROOT / "docs" / "pictures", ROOT / "docs" / "MANUAL.md"
ACCEPTED, REFUSED, UNREADABLE = 0, 1, 2
# The pictures, each with its sheet, the series of examples/tucson/oak.rwl by part, and other options.
WHOLE = "whole-ring"
ROOF = {"earlywood": "ROOF04E", "latewood": "ROOF04L"}
NARROW = ["--narrow"]
STEPS = [f"step_{step}" for step in range(1, 5)] + [f"order_{order}" for order in range(3)]
DRAWN = {name: (f"sheets/{name}.sheet", {}, NARROW) for name in STEPS}
DRAWN |= {name: (f"sheets/{name}.sheet", {}, []) for name in ("low", "beam")}
DRAWN |= {"roof": ("sheets/roof.sheet", ROOF, []), "oak_fit": ("day/oak_fit.sheet", {WHOLE: "ROOF04E"}, [])}
FLOORS = "floors"    # the picture of CONTRIBUTING.md, which docs/src/picture_floors.py draws and checks
DEFAULTS = "fit_defaults"    # the picture of two defaults, which docs/src/picture_fit.py draws
OAK = "examples/tucson/oak.rwl"
CLOSE = 1e-5                 # of a scale's length: what a picture's numbers are rounded to, and less
CODES = {MOVE: "M", LINE: "L", QUADRATIC: "Q", CUBIC: "C"}
# The day's work: the command, and which kept file has what it writes and what it tells.
FITTED = "examples/day/oak_fit.sheet"
LABORATORY = "examples/refusals/refused_11_laboratory.rwl"
DAY = ((["clean", LABORATORY], "tucson/oak.rwl", "day/clean.txt"),
       (["fit", OAK, "--series", "ROOF04E"], "day/oak_fit.sheet", "day/fit.txt"),
       (["indices", OAK, "--curve", FITTED, "--series", "ROOF04E"], "day/oak_fit.csv", "day/indices.txt"),
       (["indices", LABORATORY, "--curve", FITTED, "--series", "ROOF04E"], "day/oak_fit.csv", "day/notes.txt"),
       (["curve", "examples/sheets/step_4.sheet", "--every", "30"], "day/step_4.csv", None),
       (["clean", "examples/refusals/refused_12.rwl"], None, "day/gap.txt"))
TOLD = (b"Rings are read as years", f"{OAK}: Line 22: a series ends here in another unit".encode())
COMMANDS = ("target/bin/sheet", "target/bin/tucson", "./walzhik ", ".ci/build sheet", ".ci/build tucson", ".ci/build rings", "seq -s,")
faults = []


def fault(words):
    print(words)
    faults.append(words)


def walzhik(*arguments):
    """The command in this process: its exit status, and what it wrote on the two outputs."""
    out, told = io.TextIOWrapper(io.BytesIO(), write_through=True), io.StringIO()
    with contextlib.redirect_stdout(out), contextlib.redirect_stderr(told), contextlib.chdir(ROOT):
        try:
            cli.main(list(arguments))
            status = 0
        except SystemExit as ended:
            status = ended.code
    return status, out.buffer.getvalue(), told.getvalue().encode()


def keep(path, made, write):
    """What was made must be what is kept."""
    if write:
        path.write_bytes(made)
    elif not path.exists():
        fault(f"missing: {path.relative_to(ROOT)}")
    elif path.read_bytes() != made:
        fault(f"differs: {path.relative_to(ROOT)}")


def sources():
    return sorted([*EXAMPLES.glob("*/*.sheet"), *EXAMPLES.glob("*/*.rwl")])


def explanations(write):
    for source in sources():
        status, said, told = walzhik("explain", "--strict", str(source.relative_to(ROOT)))
        wanted = REFUSED if source.name.startswith("refused") else ACCEPTED
        if status != wanted or told:
            fault(f"explain {source.name}: status {status}, {told.decode()}")
        keep(source.with_suffix(".explained"), said, write)
    stems = [source.stem for source in sources()]
    for stem in {stem for stem in stems if stems.count(stem) > 1}:
        fault(f"two examples with one explanation: {stem}")
    for kept in EXAMPLES.glob("*/*.explained"):
        if kept.stem not in stems:
            fault(f"an explanation without its example: {kept.name}")
    for unreadable in ("examples/sheets/none.sheet", "examples"):
        if walzhik("explain", unreadable)[0] != UNREADABLE:
            fault(f"explain {unreadable}: not status {UNREADABLE}")


def days_work(write):
    for arguments, written, told in DAY:
        status, out, said = walzhik(*arguments)
        if status != (ACCEPTED if written else REFUSED):
            fault(f"{' '.join(arguments)}: status {status}, {said.decode()}")
        if written:
            keep(EXAMPLES / written, out, write and written.startswith("day/"))
        if told:
            keep(EXAMPLES / told, said, write)


# Pictures.


def plotted(name, source, series, options):
    """The picture that the command draws now."""
    parts = {WHOLE: "--series", "earlywood": "--earlywood", "latewood": "--latewood"}
    chosen = [word for part, each in series.items() for word in (parts[part], each)]
    with tempfile.TemporaryDirectory() as folder:
        made = f"{folder}/{name}.svg"
        status, _, told = walzhik("plot", f"examples/{source}", *([OAK] * bool(series)), *chosen, *options, "-o", made)
        if status or [line for line in told.splitlines() if not line.startswith(TOLD)]:
            fault(f"plot {name}: status {status}, {told.decode()}")
        return Path(made).read_bytes()


def expected_paths(source, series):
    """What the picture of a sheet must say, by the engine: curves, widths and indices, as (command, ring, height)."""
    curve = sheet.read((EXAMPLES / source).read_bytes()).curve()
    paths = {}
    for part in [WHOLE] if curve.is_whole_ring else ["earlywood", "latewood"]:
        shape = outline(curve, None if part == WHOLE else part)
        paths[f"curve-{part}"] = [(CODES[code], *point) for code, point in zip(shape.codes, shape.points)]
    measured = {each.name: each for each in tucson.read(ROOT / OAK, strict=True)}
    for place, (part, name) in enumerate(series.items()):
        widths, first = measured[name].widths, measured[name].first
        indices = curve.indices(widths, first, None if part == WHOLE else part)
        present = [ring for ring, width in enumerate(widths.tolist()) if width]
        paths[f"widths-{place}"] = [(None, first + ring, widths[ring] / 1000) for ring in present]
        paths[f"indices-{place}"] = [(None, first + ring, float(indices[ring])) for ring in present]
    return paths


def path_fault(found, expected):
    """What is wrong with a path, or None."""
    if len(found) != len(expected):
        return f"{len(found)} vertices, not {len(expected)}"
    wide = max(ring for _, ring, _ in expected) - min(ring for _, ring, _ in expected)
    high = max(abs(height) for _, _, height in expected)
    for vertex, (command, ring, height) in zip(found, expected):
        if command not in (None, vertex.command):
            return f"{vertex} for command {command}"
        if abs(vertex.ring - ring) > CLOSE * wide or abs(vertex.height - height) > CLOSE * high:
            return f"{vertex}, not {ring}, {height}"
    return None


def hold(path, source, series, options, write):
    """The kept picture says what the engine says, in the words that the command uses now."""
    drawn = plotted(path.stem, source, series, options)
    if write:
        path.write_bytes(drawn)
    if not path.exists():
        fault(f"missing: {path.relative_to(ROOT)}")
        return
    kept, expected = picture(path.read_bytes()), expected_paths(source, series)
    if kept.paths.keys() != expected.keys() or kept.words != picture(drawn).words:
        fault(f"{path.name}: it has {sorted(kept.paths)} and {kept.words}")
        return
    for name, wanted in expected.items():
        wrong = path_fault(kept.paths[name], wanted)
        if wrong:
            fault(f"{path.name}, {name}: {wrong}")


def hold_defaults(path, write):
    """The kept picture of the two defaults is what the fits give now."""
    drawn = plot.rendered(picture_fit.picture(), "svg")
    if write:
        path.write_bytes(drawn)
    if not path.exists():
        fault(f"missing: {path.relative_to(ROOT)}")
        return
    kept, wanted = picture(path.read_bytes()), picture(drawn)
    if kept.paths.keys() != wanted.paths.keys() or kept.words != wanted.words:
        fault(f"{path.name}: it has {sorted(kept.paths)} and {kept.words}")
        return
    for name, expected in wanted.paths.items():
        wrong = path_fault(kept.paths[name], expected)
        if wrong:
            fault(f"{path.name}, {name}: {wrong}")


def pictures(write):
    for name, how in DRAWN.items():
        hold(PICTURES / f"{name}.svg", *how, write)
    hold_defaults(PICTURES / f"{DEFAULTS}.svg", write)
    for kept in PICTURES.glob("*"):
        if kept.stem not in (*DRAWN, DEFAULTS, FLOORS):
            fault(f"a picture that nothing draws: {kept.name}")


# The manual's text.


def kept_lines():
    """All lines of the examples that the manual may quote."""
    kinds = ("*.sheet", "*.out", "*.explained", "*.rwl", "*.txt", "*.csv")
    return {line for kind in kinds for path in EXAMPLES.glob(f"*/{kind}")
            for line in path.read_bytes().decode("ascii", "replace").split("\n")}


def quotes(text, lines):
    """Indented lines and lines of printouts in the text are lines of examples, or commands."""
    for line in re.findall(r"^    (.*)$", text, re.MULTILINE):
        short = line.removesuffix("...")
        if not (line in lines or line.startswith(COMMANDS) or short != line and any(each.startswith(short) for each in lines)):
            fault(f"in the manual, but in no example: {line}")
    for line in re.findall(r"`((?:n|w|v|no|low|breaks|degrees|orders|coefs|at)=[^`]+)`", text):
        if line not in lines:
            fault(f"in the manual, but in no example: {line}")


def links(text):
    """Each link leads somewhere; each refusal and each picture is shown."""
    headings = {re.sub(r"[^a-z0-9 -]", "", line.lower()).replace(" ", "-")
                for line in re.findall(r"^#+ (.*)$", text, re.MULTILINE)}
    linked = set()
    for link in re.findall(r"\]\(([^)]+)\)", text):
        path, _, anchor = link.partition("#")
        if path and not (MANUAL.parent / path).exists() or anchor and not path and anchor not in headings:
            fault(f"a link that leads nowhere: {link}")
        linked.add(Path(path).name)
    for shown in [*EXAMPLES.glob("*/refused*"), *PICTURES.glob("*")]:
        if shown.suffix in (".sheet", ".rwl", ".c", ".svg") and shown.name not in linked and shown.stem != FLOORS:
            fault(f"not in the manual: {shown.name}")


def numbers(text):
    """The examples of a number are refused with it."""
    for number, row in re.findall(r"^\| (\d+) \|(.*)$", text, re.MULTILINE):
        for name in re.findall(r"\]\(\.\./examples/refusals/(refused\w*)\.(?:sheet|rwl)\)", row):
            said = (EXAMPLES / "refusals" / f"{name}.explained").read_text(encoding="ascii")
            if not said.startswith(f"Refused: no={number},"):
                fault(f"{name} does not show {number}")


def main():
    parser = argparse.ArgumentParser(description="hold the manual against the program and the command")
    parser.add_argument("--write", action="store_true", help="keep what the command gives now")
    chosen = parser.parse_args()
    days_work(chosen.write)
    explanations(chosen.write)
    pictures(chosen.write)
    text = MANUAL.read_text(encoding="utf-8")
    quotes(text, kept_lines())
    links(text)
    numbers(text)
    print(f"manual: {len(sources())} explanations, {len(DRAWN) + 1} pictures, {len(faults)} faults")
    return 1 if faults else 0


if __name__ == "__main__":
    sys.exit(main())
