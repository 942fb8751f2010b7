"""The crate for Rust, as far as its own tests (rust/tests) can't see it: what its build looks at, and that nothing in it
is without words or unused. They are run by cargo in the gate.
"""

from __future__ import annotations

import os
import subprocess
from pathlib import Path

import pytest
from running import ROOT


def test_the_build_looks_at_the_archives(tmp_path: Path) -> None:
    script, folder = tmp_path / "build", tmp_path / "archives"
    environment = {**os.environ, "CARGO_MANIFEST_DIR": str(ROOT / "rust"), "WALZHIK_LIB": str(folder)}
    subprocess.run(
        ["rustc", "--edition", "2021", ROOT / "rust" / "build.rs", "-o", script], env=environment, check=True
    )
    folder.mkdir()
    names = ["libwalzhik.a", "libwalzhik_indices.a"]
    for name in names:
        (folder / name).touch()
    said = subprocess.run([script], env=environment, capture_output=True, text=True, check=True).stdout.splitlines()
    assert [f"cargo:rerun-if-changed={folder / name}" for name in names] == [
        line for line in said if "-changed=/" in line
    ]


@pytest.mark.parametrize("path", ["rust/src/lib.rs"])
def test_every_public_item_has_words_and_is_used(path: str) -> None:
    text = (ROOT / path).read_text(encoding="utf-8")
    assert "#![deny(missing_docs)]" in text and "allow(" not in text
