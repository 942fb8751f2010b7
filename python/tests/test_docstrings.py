"""Every example in a docstring runs, and every public function and class has a docstring."""

from __future__ import annotations

import doctest
import importlib
import inspect
import pkgutil

import pytest

import walzhik


def modules() -> list[str]:
    found = pkgutil.walk_packages(walzhik.__path__, "walzhik.")
    return ["walzhik", *(module.name for module in found if module.name != "walzhik.__main__")]


@pytest.mark.parametrize("name", modules())
def test_examples_run(name: str) -> None:
    module = importlib.import_module(name)
    assert module.__doc__
    assert doctest.testmod(module).failed == 0


def test_there_are_examples() -> None:
    counts = [doctest.testmod(importlib.import_module(name)).attempted for name in modules()]
    assert sum(counts) > 50


@pytest.mark.parametrize("name", [name for name in walzhik.__all__ if name != "__version__"])
def test_what_is_public_has_an_example(name: str) -> None:
    assert ">>>" in (inspect.getdoc(getattr(walzhik, name)) or "") or name in ("Piece", "Weights")
