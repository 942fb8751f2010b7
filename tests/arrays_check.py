"""The test of arrays.py: it passes the engine as it is and refuses wrong programs, each a copy with a long array in it.

usage: arrays_check.py
"""

import shutil
import subprocess
import sys
import tempfile
from pathlib import Path
from typing import NamedTuple

ROOT = Path(__file__).resolve().parent.parent
TEST = Path(__file__).resolve().parent / "arrays.py"
BUILD = "crates/build/src/lib.rt"
CELLS = "crates/build_cells/src/lib.rt"
SPACE = "crates/build_space/src/lib.rt"
CALLS = "crates/walzhik/src/lib.rt"
LONG = 400


class Line(NamedTuple):
    """A line that comes into a file: behind the text, or at the file's end where that is empty."""

    file: str
    after: str
    line: str


class Wrong(NamedTuple):
    """A wrong program: its name, the lines that come in, and what is said of it."""

    name: str
    lines: list[Line]
    said: str


def in_build(line: str) -> list[Line]:
    """A function more in crate build, with the line as its body."""
    return [Line(BUILD, "", f"\nfn more() {{\n    {line}\n}}\n")]


def two_crates(first: str, second: str, array: str) -> list[Line]:
    """The same name in two crates, with an array that goes by the first."""
    return [
        Line(CELLS, "", f"\n{first}\n\nfn more() {{\n    let held = {array};\n}}\n"),
        Line(SPACE, "", f"\n{second}\n"),
    ]


WRONG = [
    Wrong("a byte string", in_build(f'let text = b"{"x" * LONG}";'), f"{LONG} numbers in {BUILD}"),
    Wrong(
        "a constant of the same name in two crates",
        two_crates(f"const HELD: usize = {LONG};", "const HELD: usize = 2;", "[0; HELD]"),
        f"{LONG} numbers in {CELLS}",
    ),
    Wrong(
        "a struct of the same name in two crates",
        two_crates(
            "struct Held {\n    a: u64,\n    b: u64,\n}", "struct Held {\n    a: u64,\n}", "[Held { a: 0, b: 0 }; 100]"
        ),
        f"200 numbers in {CELLS}",
    ),
    Wrong(
        "a constant twice in one crate",
        [
            Line(BUILD, "", "\nconst HELD: usize = 2;\n"),
            Line("crates/build/src/parts.rt", "", "\nconst HELD: usize = 400;\n"),
        ],
        "gives the name HELD twice",
    ),
    Wrong(
        "an array after a break label",
        in_build(f"let held = 'found: loop {{ break 'found [0; {LONG}]; }};"),
        f"{LONG} numbers in {BUILD}",
    ),
    Wrong(
        "the body of the exported call",
        [
            Line(
                CALLS,
                "    let built = build::build(breaks, degrees, orders, num, den);\n",
                f"    let held = [0; {LONG}];\n",
            )
        ],
        f"{LONG} numbers in {CALLS}",
    ),
    Wrong(
        "a function that the exported call uses",
        [
            Line(CALLS, "    let built = build::build(breaks, degrees, orders, num, den);\n", "    more();\n"),
            Line(CALLS, "", f"\nfn more() {{\n    let held = [0; {LONG}];\n}}\n"),
        ],
        f"{LONG} numbers in {CALLS}",
    ),
    Wrong(
        "an array that a match takes",
        in_build(f"let one = match [0; {LONG}][3] {{ n => n }};"),
        f"{LONG} numbers in {BUILD}",
    ),
    Wrong(
        "an array of bytes",
        in_build(f"let held = [{', '.join(['b' + chr(39) + 'a' + chr(39)] * LONG)}];"),
        f"{LONG} numbers",
    ),
    Wrong(
        "a length that is imported among others",
        [
            *in_build("let held = [0; 6 * ROW_CELLS];"),
            Line(BUILD, "", "use base_fraction::{Counted, arrays::ROW_CELLS};\n"),
        ],
        f"432 numbers in {BUILD}",
    ),
    Wrong(
        "a length of a module that is imported",
        [*in_build("let held = [0; 6 * arrays::ROW_CELLS];"), Line(BUILD, "", "use base_fraction::arrays;\n")],
        f"432 numbers in {BUILD}",
    ),
    Wrong("an import of all of a module", [Line(BUILD, "", "use base_fraction::arrays::*;\n")], "can't be counted"),
    Wrong(
        "an array behind a contract",
        [Line(BUILD, "", f"\nfn more()\n    ensures held {{ [] ≡ [] }}\n{{\n    let held = [0; {LONG}];\n}}\n")],
        f"{LONG} numbers in {BUILD}",
    ),
    Wrong("a static", [Line(BUILD, "", "\nstatic HELD: u64 = 0;\n")], "a static"),
    Wrong("a length that can't be told", in_build("let held = [0; other(3)];"), "can't be counted"),
]


def said_of(lines: list[Line]) -> tuple[int, str]:
    """How the test ends on a copy of the sources with the lines, and what it says."""
    with tempfile.TemporaryDirectory() as folder:
        root = Path(folder)
        shutil.copy(ROOT / "crates.txt", root)
        for source in (ROOT / "crates").glob("*/src"):
            shutil.copytree(source, root / source.relative_to(ROOT))
        for file, after, line in lines:
            path = root / file
            text = path.read_text()
            before, mark, behind = text.partition(after) if after else (text, "end", "")
            assert mark, f"{file} has no {after!r}"
            path.write_text(before + (after and mark) + line + behind)
        ran = subprocess.run([sys.executable, TEST, "--root", root], capture_output=True, text=True, check=False)
        return ran.returncode, ran.stdout + ran.stderr


def main() -> int:
    failed = 0
    status, said = said_of([])
    if status != 0:
        print(f"arrays check: refused as it is: {said}")
        failed = 1
    for wrong in WRONG:
        status, said = said_of(wrong.lines)
        if status != 1 or wrong.said not in said:
            print(f"arrays check: {wrong.name}: status {status}, {said}")
            failed = 1
    print(f"arrays check: {len(WRONG)} wrong programs, {'not all' if failed else 'all'} refused")
    return failed


if __name__ == "__main__":
    sys.exit(main())
