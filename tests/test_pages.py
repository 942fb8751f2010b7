"""The pages, comments and tables of the tree say what is there."""

from __future__ import annotations

import pytest
from building import ROOT, archives_at_rest, ended, python

CHECKS = {
    "names": ["tests/names.py"],
    "wrong-names": ["tests/names.py", "--self-test"],
    "quotations": ["tests/quotations.py"],
    "wrong-quotations": ["tests/quotations.py", "--self-test"],
    "wrong-pages": ["tests/pages.py", "--self-test"],
    "statements": ["tests/statements.py"],
    "wrong-statements": ["tests/statements.py", "--self-test"],
    "must-fail-table": ["tests/must_fail_table.py"],
    "proofs-layout": ["tests/proofs_layout.py"],
    "wrong-proofs-layout": ["tests/proofs_layout.py", "--self-test"],
    "r-made": ["tests/r_made.py"],
    "floors": ["docs/src/picture_floors.py", "--check"],
    "columns": ["tests/columns.py"],
    "wrong-columns": ["tests/columns.py", "--self-test"],
}


@pytest.mark.parametrize("check", CHECKS)
def test_text(check: str) -> None:
    """Names, quotations, links and tables, and that a wrong one is found."""
    python(*CHECKS[check])


def test_layout_of_the_crates() -> None:
    """Every file of the crates is in the kit's layout."""
    files = [
        *ROOT.glob("crates/*/src/**/*.rt"),
        *ROOT.glob("crates/*/specs/**/*.antt"),
        *ROOT.glob("crates/*/proofs/**/*.antt"),
    ]
    ended(["rattle", "fmt", "--check", *files])


@pytest.mark.parametrize("script", ["version", "manual"])
def test_package_pages(script: str, package: None) -> None:
    """The version is one; the manual's explanations and pictures are what the command gives."""
    python(f"tests/{script}.py")


@pytest.mark.long(110)
def test_commands_of_the_pages(package: None, tmp_path_factory: pytest.TempPathFactory) -> None:
    """Links and files of the pages are there, and their commands run; some build the archives anew."""
    with archives_at_rest(tmp_path_factory.getbasetemp()):
        python("tests/pages.py")
