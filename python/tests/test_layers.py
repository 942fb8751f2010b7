"""The layers of the package: a module imports nothing from a layer above its own, wherever the import stands."""

from __future__ import annotations

import ast
from collections.abc import Iterator
from pathlib import Path

from running import ROOT

PACKAGE = ROOT / "python" / "src" / "walzhik"
# From the lowest. A folder stands for all of its modules that are not named; what is named nowhere is of the library, between
# the first two of these and the parts that are made of it.
LIBRARY = ("words/fits",)
LOWEST = ("words/__init__", "words/numbers", "words/quoting", "words/table")
LAYERS = (
    (*LOWEST, "_build", "_place", "_proof", "errors", "files", "formats", "limits", "threads"),
    ("_engine", "words", "space", "curve", "recover", "sheet"),
    LIBRARY,
    ("bank", "view"),
    ("commands",),
    ("__init__", "cli", "__main__"),
)
BESIDE = ("__init__",)  # what anybody may take from the package itself: its version


def layer(module: str) -> int:
    """The place of a module's layer, by its name or that of its folder."""
    library = LAYERS.index(LIBRARY)
    of_names = {name: place for place, names in enumerate(LAYERS) for name in names}
    return of_names.get(module, of_names.get(module.split("/")[0], library))


def module_at(way: Path) -> str:
    """A module of the package by its path without ending; a folder is its own module."""
    return str((way if way.with_suffix(".py").exists() else way / "__init__").relative_to(PACKAGE))


def imported(path: Path) -> Iterator[str]:
    """The modules of the package that a module imports, by their paths without ending."""
    for node in ast.walk(ast.parse(path.read_text())):
        if isinstance(node, ast.ImportFrom):
            folder = path.parents[node.level - 1] if node.level else PACKAGE.parent
            base = folder.joinpath(*(node.module or "").split("."))
            if base.is_relative_to(PACKAGE):
                for each in node.names:
                    yield module_at(base / each.name if (base / f"{each.name}.py").exists() else base)
        elif isinstance(node, ast.Import):
            for each in node.names:
                base = PACKAGE.parent.joinpath(*each.name.split("."))
                if base.is_relative_to(PACKAGE):
                    yield module_at(base)


def test_no_module_imports_upward() -> None:
    modules = sorted(PACKAGE.rglob("*.py"))
    wrong = []
    for path in modules:
        module = str(path.relative_to(PACKAGE).with_suffix(""))
        for each in imported(path):
            if layer(each) > layer(module) and each not in BESIDE:
                wrong.append(f"{module} imports {each}")
    assert len(modules) > 90 and not wrong, wrong


def test_the_data_bank_and_the_screen_do_not_need_each_other() -> None:
    for folder, other in (("bank", "view"), ("view", "bank")):
        for path in (PACKAGE / folder).rglob("*.py"):
            assert not any(each.split("/")[0] == other for each in imported(path)), path


def test_what_is_upward_is_seen() -> None:
    assert layer("commands/bank") > layer("bank/work") > layer("dividing") > layer("curve") > layer("errors")
    assert {"choosing", "fit_series", "bank/records"} <= set(imported(PACKAGE / "bank" / "work.py"))
