"""What calls cost, by instructions that callgrind counts, and that the benchmarks run."""

from __future__ import annotations

import os
import sys
from pathlib import Path

import pytest
from building import ROOT, Built, ended, python


def test_reading_a_tucson_text(tucson_driver: Path) -> None:
    """Linear in the text."""
    python("tests/reading_cost.py", tucson_driver)


@pytest.mark.long(20)
def test_cleaning_a_file(tucson_driver: Path) -> None:
    """Linear in the file; a strict text takes at most twice its reading."""
    python("tests/cleaning_cost.py", tucson_driver)


def test_reach(driver: Path) -> None:
    """A reach call against a scan of every position."""
    python("tests/reach_cost.py", driver)


def test_sorting_the_low_lines(programs: Path) -> None:
    """Falling positions at most twice rising ones."""
    python("tests/low_order.py", programs / "sheet")


@pytest.mark.long(20)
def test_against_the_plain_program(built: Built) -> None:
    """Builds and curves against a plain program in one run."""
    python("tests/speed.py", built.rust("benchmark", "docs/src/benchmark.rs"))


@pytest.mark.long(20)
@pytest.mark.parametrize("script", ["benchmark", "benchmark_fit"])
def test_benchmark_runs(script: str, package: None) -> None:
    """The daily job and the fits on a few cores: that they run, not how fast."""
    here = os.environ | {"PYTHONPATH": str(ROOT / "python/src")}
    ended([sys.executable, f"docs/src/{script}.py", "quick"], env=here)
