"""The test of second_library.py: it passes the library as it is and refuses it with one thing too much.

usage: second_library_check.py

Each wrong library is a copy of the crates with one line more: a wrong import in the source and in a proof, a second called
function, one that comes in by an import, and the first library among the dependencies.
"""

import shutil
import sys
import tempfile
from pathlib import Path
from typing import NamedTuple

from second_library import ALLOWED, faults

ROOT = Path(__file__).resolve().parent.parent


class Wrong(NamedTuple):
    """A wrong library: the file, the text after which a line comes in, that line, and what is said of it."""

    file: str
    after: str
    line: str
    said: str


WRONG = [
    Wrong(
        "crates/indices/proofs/Call.antt",
        "\n",
        "use Rattle.curve.proofs.Parts.{held}\n",
        "the module curve.proofs.Parts",
    ),
    Wrong(
        "crates/indices/src/lib.rt",
        "\n",
        "ghost use Rattle.curve_triangle.specs.Value;\n",
        "the module curve_triangle.specs.Value",
    ),
    Wrong(
        "crates/indices_rings/src/lib.rt",
        "    let width = widths[i];\n",
        "    let z = base_division::floor_div(1, 1);\n",
        "the call base_division::floor_div",
    ),
    Wrong("crates/indices/src/lib.rt", "\n", "use base_division::floor_div;\n", "the import base_division::floor_div"),
    Wrong(
        "crates/walzhik_indices/src/lib.rt",
        "\n{\n",
        "    let answer = curve::curve(a, b, c, d, e, f, g, h);\n",
        "the call curve::curve",
    ),
    Wrong("crates.txt", "\nindices: ", "walzhik ", "reaches crate walzhik"),
]


def said_of(wrong: Wrong | None) -> list[str]:
    """What the test says of a copy of the library with the line."""
    with tempfile.TemporaryDirectory() as folder:
        root = Path(folder)
        shutil.copy(ROOT / "crates.txt", root)
        for crate in ALLOWED:
            shutil.copytree(ROOT / "crates" / crate, root / "crates" / crate, ignore=shutil.ignore_patterns("out"))
        if wrong is not None:
            path = root / wrong.file
            before, mark, behind = path.read_text().partition(wrong.after)
            assert mark, f"{wrong.file} has no {wrong.after!r}"
            path.write_text(before + mark + wrong.line + behind)
        return list(faults(root))


def main() -> int:
    failed = 0
    if said_of(None):
        print("second library check: refused as it is")
        failed = 1
    for wrong in WRONG:
        said = said_of(wrong)
        if len(said) == 0 or not all(wrong.said in one for one in said):
            print(f"second library check: {wrong.file} with {wrong.line.strip()!r} gives {said}")
            failed = 1
    print(f"second library check: {len(WRONG)} wrong libraries, {'not all ' if failed else 'all '}refused")
    return failed


if __name__ == "__main__":
    sys.exit(main())
