"""The command `proof`: what was proved of the installed files, and whether they are still those."""

from __future__ import annotations

import shutil
import subprocess
import tempfile
from collections.abc import Iterator
from pathlib import Path

import click

from .. import _build, _proof
from .._place import INSTALLED, checkout
from ..failures import REFUSED, Unusable

DONE = 0
STANDARD_ERROR = 2


def records() -> list[tuple[Path, _proof.Record]]:
    """The records of all packages that are installed beside this one, with their folder."""
    own = (INSTALLED / f"walzhik{_proof.ENDING}").resolve()
    paths = sorted(own.parent.glob(f"*{_proof.ENDING}"), key=lambda path: (path != own, path.name))
    try:
        return [(path.parent, _proof.read(path.read_text(encoding="utf-8"))) for path in paths]
    except ValueError as error:
        raise Unusable(f"{own.parent}: {error}") from error


def of_checkout(root: Path) -> _proof.Record:
    """What a record of this checkout would say, with nothing installed."""
    there = [name for name in _proof.proved(root) if (root / name).exists()]
    return _proof.record(root, "none: a checkout", root, [(_proof.NOT_INSTALLED, name) for name in there])


def build(source: Path) -> None:
    """Prove and build a source tree with the kit, whose own lines go to standard error.

    Raises
    ------
    Unusable
        If there is no kit, or something is not proved.
    """
    if shutil.which("rt") is None:
        raise Unusable("The Rattle kit is not here: rt, which proves and builds, is no command.")
    libraries = [header.stem for header in _build.headers(source / "include")]
    words = [".ci/build", *_proof.programs(source), *libraries]
    if subprocess.run([str(source / words[0]), *words[1:]], cwd=source, stdout=STANDARD_ERROR, check=False).returncode:
        raise Unusable(f"{' '.join(words)} failed in {source}.")


def rebuilt_differences(found: _proof.Record, source: Path) -> Iterator[str]:
    """In words, each file of a record that the source tree builds otherwise."""
    commit = _proof.commit(source)
    if commit != found.fields["commit"]:
        click.echo(f"The record is of commit {found.fields['commit']}, the source of {commit}.", err=True)
    for held in found.files:
        if held.origin == _proof.COMPILED:
            click.echo(f"{held.path}: not built again, it is C for R over the archives")
            continue
        with tempfile.TemporaryDirectory() as folder:
            other = _proof.digest(_proof.made(source, held.origin, Path(folder)))
        if other == held.digest:
            click.echo(f"{held.origin}: the same, bit for bit")
        else:
            yield f"{held.origin}: built again it has the SHA-256 {other}, the record {held.digest}"


@click.command()
@click.option(
    "--rebuild", metavar="SOURCE", help="Build this source tree with the Rattle kit, and compare bit for bit."
)
def command(rebuild: str | None) -> int:
    """Print what was proved of what is installed, and compare the files with it.

    A record has the version, the commit, the kit that proved it, the last line of the tests, and the SHA-256 of archives, programs and
    shared objects. Each package holds its own; those that are installed are all printed. In a checkout nothing is installed: the
    record is then that of the tree. --rebuild proves in SOURCE what is not proved there yet; a fresh clone proves all.

    \b
    ./walzhik proof
    ./walzhik proof --rebuild SOURCE

    Exit status: 0 all is the same, 1 a file differs or is missing, 2 wrong usage, or something can't be read or built.
    """
    root = checkout()
    found = [(root, of_checkout(root))] if root else records()
    if not found:
        raise Unusable(f"There is no record of what was proved in {INSTALLED}.")
    for _, each in found:
        click.echo(each.text())
    if rebuild is not None:
        source = Path(rebuild).resolve()
        if not (source / "crates.txt").exists():
            raise Unusable(f"{rebuild}: no source tree of walzhik, crates.txt is not there.")
        build(source)
    differing = [words for folder, each in found for words in _proof.differences(each, folder)]
    if rebuild is not None:
        differing += [words for _, each in found for words in rebuilt_differences(each, source)]
    for words in differing:
        click.echo(words, err=True)
    if differing:
        return REFUSED
    compared = sum(held.path != _proof.NOT_INSTALLED for _, each in found for held in each.files)
    click.echo("This is a checkout: nothing is installed." if root else f"{compared} installed files are as recorded.")
    return DONE
