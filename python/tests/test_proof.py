"""The record of what was proved: made from a tree, read back, compared with installed files and with a tree built again."""

from __future__ import annotations

import os
import shutil
import subprocess
from pathlib import Path

import click
import pytest
from running import ROOT, Run

from walzhik import __version__, _build, _proof
from walzhik.cli import GROUPS, cli, main
from walzhik.commands import proof

LINKED = [(_build.LIBRARY, _proof.ALL_CALLS), ("sheet", "target/bin/sheet")]


@pytest.fixture
def tree(tmp_path: Path) -> Path:
    """A proved tree, without its crates' texts."""
    root = tmp_path / "tree"
    for name in ("include", "target/staticlib", "target/bin"):
        shutil.copytree(ROOT / name, root / name, copy_function=shutil.copyfile)
    shutil.copytree(ROOT / ".ci", root / ".ci")
    for name in ("sheet", "tucson", "walzhik", "walzhik_indices"):
        (root / "crates" / name).mkdir(parents=True)
    static = "walzhik staticlib: base\nwalzhik_indices staticlib: base\n"
    (root / "crates.txt").write_text(f"sheet: base\ntucson: base\n{static}")
    for path in (root / "crates", *root.glob("crates*"), *(root / "include").glob("*"), root / "include"):
        os.utime(path, (1, 1))
    return root


@pytest.fixture
def installed(tree: Path, tmp_path: Path, monkeypatch: pytest.MonkeyPatch) -> Path:
    """The engine installed beside the package, with its record."""
    native = tmp_path / "_native"
    _proof.made(tree, _proof.ALL_CALLS, native)
    shutil.copy(tree / "target/bin/sheet", native)
    (native / "walzhik.proof").write_text(_proof.record(tree, "walzhik", native, LINKED).text())
    monkeypatch.setattr(proof, "INSTALLED", native)
    monkeypatch.setattr(proof, "checkout", lambda: None)
    return native


def kit(folder: Path, monkeypatch: pytest.MonkeyPatch, text: str) -> None:
    """A stand-in for the kit."""
    folder.mkdir()
    (folder / "rt").write_text(f"#!/bin/sh\n{text}\n")
    (folder / "rt").chmod(0o755)
    monkeypatch.setenv("PATH", f"{folder}:{os.environ['PATH']}")


def test_a_record_is_read_back(tree: Path) -> None:
    made = _proof.record(tree, "walzhik", tree, [("/target/bin/sheet", "target/bin/sheet")])
    assert _proof.read(made.text()) == made and made.fields["version"] == __version__
    with pytest.raises(ValueError, match="no line of a record: nonsense"):
        _proof.read("nonsense\n")


def test_what_is_missing_or_older_is_told(tree: Path) -> None:
    assert _proof.unproved(tree) == []
    os.utime(tree / "target/bin/tucson", (0, 0))
    assert _proof.unproved(tree)[0].startswith("target/bin/tucson is older than ")
    (tree / "crates.txt").write_text("sheet: io\ntucson: io\nrings: io\n")
    missing = [] if (tree / "target/bin/rings").exists() else ["target/bin/rings is missing"]
    assert _proof.unproved(tree)[: len(missing)] == missing
    (tree / "target/bin/sheet").unlink()
    assert "target/bin/sheet is missing" in _proof.unproved(tree) and _proof.main([str(tree)]) == 2


def test_the_gates_line_is_of_its_own_commit(tree: Path, monkeypatch: pytest.MonkeyPatch) -> None:
    monkeypatch.delenv("WALZHIK_GATE", raising=False)
    assert _proof.gate(tree, "a1") == "not run"
    (tree / "target/gate").write_text("a1: 7 passed, 0 failed\n")
    assert _proof.gate(tree, "a1") == "7 passed, 0 failed"
    assert _proof.gate(tree, "b2") == _proof.gate(tree, "a1 with changes") == "not run on this commit"
    monkeypatch.setenv("WALZHIK_GATE", "9 passed, 0 failed")
    assert _proof.gate(tree, "b2") == "9 passed, 0 failed"


def test_installed_files_are_compared(run: Run, installed: Path) -> None:
    ended = run("proof")
    assert ended.status == 0 and ended.out.endswith("2 installed files are as recorded.\n")
    with open(installed / "sheet", "ab") as program:
        program.write(b"!")
    (installed / _build.LIBRARY).unlink()
    ended = run("proof")
    assert (
        ended.status == 1
        and "libwalzhik.so is missing" in ended.err
        and "sheet differs: it has the SHA-256" in ended.err
    )


def test_a_tree_is_built_again(
    run: Run, installed: Path, tree: Path, tmp_path: Path, monkeypatch: pytest.MonkeyPatch
) -> None:
    builds = f"""echo "${{PWD##*/}}: $*" >>"{tmp_path}/notes"
[ $1 = all ] || mkdir -p out
[ $1 != run ] || cp "{tree}/target/bin/${{PWD##*/}}" out/
[ $1 != lib ] || cp "{tree}/target/staticlib/lib${{PWD##*/}}.a" out/"""
    kit(tmp_path / "tools", monkeypatch, builds)
    ended = run("proof", "--rebuild", str(tree))
    assert ended.status == 0 and ended.out.count("the same, bit for bit") == 2
    asked = (tmp_path / "notes").read_text().splitlines()
    assert asked == ["tree: all check --jobs 4", "sheet: run", "tucson: run", "walzhik: lib", "walzhik_indices: lib"]
    with open(tree / "target/bin/sheet", "ab") as program:
        program.write(b"!")
    ended = run("proof", "--rebuild", str(tree))
    assert ended.status == 1 and "target/bin/sheet: built again it has the SHA-256" in ended.err
    assert run("proof", "--rebuild", str(tmp_path)).status == 2


def test_what_is_not_proved_again_is_told(
    run: Run, installed: Path, tree: Path, tmp_path: Path, monkeypatch: pytest.MonkeyPatch
) -> None:
    kit(tmp_path / "tools", monkeypatch, "exit 1")
    ended = run("proof", "--rebuild", str(tree))
    assert ended.status == 2 and ".ci/build sheet tucson walzhik walzhik_indices failed" in ended.err


def test_a_checkout_says_that_nothing_is_installed(run: Run) -> None:
    ended = run("proof")
    assert ended.status == 0 and "target/staticlib/libwalzhik.a" in ended.out and "This is a checkout" in ended.out


def test_the_version_names_commit_and_kit(capfd: pytest.CaptureFixture[str]) -> None:
    with pytest.raises(SystemExit):
        main(["--version"])
    head = subprocess.run(["git", "rev-parse", "HEAD"], cwd=ROOT, capture_output=True, text=True, check=True).stdout
    said = capfd.readouterr().out
    assert said.startswith(f"walzhik {__version__}, commit {head.strip()}") and ", kit " in said


def test_every_command_is_in_one_group_of_the_help() -> None:
    grouped = [name for group in GROUPS.values() for name in group]
    assert sorted(grouped) == cli.list_commands(click.Context(cli))  # type: ignore[attr-defined]
