"""The rational program checks itself, and tries what is proved on random spaces."""

from __future__ import annotations

import pytest
from building import python

CHECKS = {"selfcheck": 1_000, "promisescheck": 2_000, "memberscheck": 2_000}


@pytest.mark.long(30)
@pytest.mark.parametrize("check", CHECKS)
def test_rational_program(check: str) -> None:
    """Cases, demands and theorems in plain fractions."""
    python(f"tests/reference/{check}.py", "--seed", 1, "--count", CHECKS[check])
