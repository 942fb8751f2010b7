"""The words of the command against the rational program; python/tests has the rest of the package."""

from __future__ import annotations

import pytest
from building import python


@pytest.mark.long(30)
def test_words_of_explain(package: None) -> None:
    """Number, place and words, for random sheets and Tucson files."""
    python("tests/explain.py", "--seed", 1, "--count", 2_000)
