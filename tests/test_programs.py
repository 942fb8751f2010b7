"""The proved programs against the rational program, byte for byte."""

from __future__ import annotations

from pathlib import Path

import pytest
from building import CURVES, INDICES, ROOT, Built, ended, python

PROGRAMS = {
    "sheet": ("compare_sheets.py", 2_000),
    "tucson": ("compare_filter.py", 1_000),
    "rings": ("compare_rings.py", 1_000),
}


@pytest.mark.long(30)
@pytest.mark.parametrize("program", PROGRAMS)
def test_program(program: str, programs: Path) -> None:
    """Random texts, good and damaged."""
    script, count = PROGRAMS[program]
    python(f"tests/{script}", programs / program, "--seed", 1, "--count", count)


def test_standard_input_is_taken_whole(built: Built, programs: Path) -> None:
    """A failed read is reported and prints nothing."""
    examples = [
        built.c("rings_c", "examples/c/rings.c", CURVES, INDICES),
        built.c("tucson_c", "examples/c/tucson.c", CURVES),
    ]
    python("tests/whole_input.py", *(programs / name for name in PROGRAMS), *examples)


def test_table_of_the_example(programs: Path) -> None:
    """The table that stands beside the example's sheet and file."""
    example = ROOT / "examples/rings"
    assert ended(["sh", "-c", f"exec {programs}/rings <{example}/roof.txt"]) == (example / "roof.csv").read_text()
