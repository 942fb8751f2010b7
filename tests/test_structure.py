"""What the code may hold, call and import, and its layout and types."""

from __future__ import annotations

import sys

import pytest
from building import ROOT, ended, python

LAID_OUT = [
    *("python", "tests/screen.py", "tests/browser", "tests/building.py", "tests/conftest.py", "tests/debian_root.py"),
    *("debian/stage.py", "debian/manual.py", ".ci/progress.py"),
    *sorted(str(path) for path in (ROOT / "tests").glob("test_*.py")),
    *(
        f"docs/src/{name}.py"
        for name in ("benchmark", "benchmark_bank", "benchmark_fit", "picture_fit", "picture_floors", "screen_times")
    ),
]


@pytest.mark.parametrize("script", ["arrays", "arrays_check", "second_library", "second_library_check"])
def test_sources(script: str) -> None:
    """Building holds no long array, the second library calls the curve alone; wrong programs are refused."""
    python(f"tests/{script}.py")


def test_types(package: None) -> None:
    """The package, by mypy."""
    config = ["--strict", "--config-file", "python/pyproject.toml"]
    ended([sys.executable, "-m", "mypy", *config, "python/src/walzhik"])


def test_layout_of_python() -> None:
    """The package, the screen and the tests by name, by black."""
    ended([sys.executable, "-m", "black", "--check", "--quiet", "--config", "python/pyproject.toml", *LAID_OUT])
