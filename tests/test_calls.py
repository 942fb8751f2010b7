"""Every call of the libraries against the rational program, with every lent cell, and a few under valgrind."""

from __future__ import annotations

from pathlib import Path

import pytest
from building import python

# The script, and how many random calls it compares: all, and those under valgrind.
CALLS = {
    "build-and-curve": ("compare.py", 20_000, 300),
    "indices": ("compare_indices.py", 5_000, 150),
    "reach": ("compare_reach.py", 3_000, 150),
    "pieces": ("compare_pieces.py", 3_000, 150),
    "coefficients": ("compare_coefficients.py", 5_000, 150),
    "table": ("compare_table.py", 5_000, 100),
}
TUCSON = {
    "tucson": ("compare_tucson.py", 5_000, 50),
    "clean": ("compare_clean.py", 20_000, 60),
}


def compared(script: str, driver: Path, count: int, valgrind: int, under: bool) -> None:
    """Random calls of one kind, by the driver as it is or under valgrind."""
    chosen = ["--seed", 2, "--count", valgrind, "--valgrind"] if under else ["--seed", 1, "--count", count]
    python(f"tests/{script}", driver, *chosen)


@pytest.mark.long(30)
@pytest.mark.parametrize("under", [False, True], ids=["all", "valgrind"])
@pytest.mark.parametrize("call", CALLS)
def test_call(call: str, under: bool, driver: Path) -> None:
    """Calls on lists."""
    compared(CALLS[call][0], driver, *CALLS[call][1:], under)


@pytest.mark.long(30)
@pytest.mark.parametrize("under", [False, True], ids=["all", "valgrind"])
@pytest.mark.parametrize("call", TUCSON)
def test_tucson_call(call: str, under: bool, tucson_driver: Path) -> None:
    """Calls on texts."""
    compared(TUCSON[call][0], tucson_driver, *TUCSON[call][1:], under)


@pytest.mark.long(15)
def test_cases_of_laboratories_files(tucson_driver: Path) -> None:
    """Cases with known answers, and the buffers that are always enough."""
    python("tests/clean_cases.py", tucson_driver)
