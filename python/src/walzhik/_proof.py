"""The record of what was proved: version, commit, kit, the gate's last line, and the SHA-256 of all that stands on the proofs.
Each package holds one. It stands apart, on Python's standard library alone, because packages are built by it before the
package can be imported.
"""

from __future__ import annotations

import os
import re
import subprocess
import sys
from collections.abc import Iterator, Sequence
from dataclasses import dataclass
from hashlib import sha256
from pathlib import Path

try:
    from . import _build
except ImportError:  # started as a script, beside it
    import _build  # type: ignore[import, no-redef]

ENDING = ".proof"
FIELDS = ("package", "version", "commit", "kit", "gate")
UNKNOWN, NOT_RUN, CHANGED = "unknown", "not run", " with changes"
PROGRAMS = ("sheet", "tucson", "rings")
LINKED, COMPILED = "linked", "compiled"
ALL_CALLS = f"{LINKED}/{_build.LIBRARY}"
NOT_INSTALLED = "-"
SOURCES = ("crates", "crates.txt", "include")
STAMP = "target/lib/built"
UNUSABLE = 2


@dataclass(frozen=True)
class Held:
    """A file of a record.

    Attributes
    ----------
    digest : str
        Its SHA-256.
    path : str
        Where it is installed, from the record's folder if it does not begin with /; - for an archive that others were linked from.
    origin : str
        What it is in a proved tree: a file, linked/NAME for a shared object over the archives, or compiled.
    """

    digest: str
    path: str
    origin: str


@dataclass(frozen=True)
class Record:
    """What was proved, and the files that stand on it."""

    fields: dict[str, str]
    files: tuple[Held, ...]

    def text(self) -> str:
        """The record as it is written down."""
        head = [f"{name}: {self.fields.get(name, UNKNOWN)}\n" for name in FIELDS]
        return "".join([*head, *(f"{held.digest}\t{held.path}\t{held.origin}\n" for held in self.files)])


def read(text: str) -> Record:
    """A record from its text.

    Raises
    ------
    ValueError
        If it is none.

    Examples
    --------
    >>> read("package: walzhik\\nversion: 2.0.0\\n").fields["version"]
    '2.0.0'
    """
    fields, files = {}, []
    for line in text.splitlines():
        parts = line.split("\t")
        name, colon, value = line.partition(": ")
        if len(parts) == 3 and re.fullmatch("[0-9a-f]{64}", parts[0]):
            files.append(Held(*parts))
        elif colon and name in FIELDS:
            fields[name] = value
        else:
            raise ValueError(f"this is no line of a record: {line}")
    return Record(fields, tuple(files))


def digest(path: Path) -> str:
    """The SHA-256 of a file."""
    return sha256(path.read_bytes()).hexdigest()


def _said(root: Path, *command: str) -> str:
    """What a command prints in a folder; nothing where it fails or is not there."""
    try:
        return subprocess.run(command, cwd=root, capture_output=True, text=True, check=True).stdout.strip()
    except (OSError, subprocess.CalledProcessError):
        return ""


def commit(root: Path) -> str:
    """The commit of a tree, from WALZHIK_COMMIT or git; with a word where tracked files have been changed since."""
    named = os.environ.get("WALZHIK_COMMIT", "")
    top = _said(root, "git", "rev-parse", "--show-toplevel")
    if named or not top or Path(top).resolve() != root.resolve():
        return named or UNKNOWN
    changed = _said(root, "git", "status", "--porcelain", "--untracked-files=no")
    return _said(root, "git", "rev-parse", "HEAD") + (CHANGED if changed else "")


def kit(root: Path) -> str:
    """The kit's identity: the one that is here, else the one that the proofs were made with."""
    written = root / ".ci" / "kit"
    return _said(root, "rt", "version") or (written.read_text("utf-8").strip() if written.exists() else UNKNOWN)


def gate(root: Path, at: str) -> str:
    """The gate's last line, from WALZHIK_GATE, or from what it wrote down of this very commit."""
    named = os.environ.get("WALZHIK_GATE", "")
    written = root / "target" / "gate"
    if named or not written.exists():
        return named or NOT_RUN
    of, _, line = written.read_text("utf-8").strip().partition(": ")
    return line if of == at else f"{NOT_RUN} on this commit"


def identity(root: Path) -> dict[str, str]:
    """What a record says of a tree beside its files."""
    at = commit(root)
    header = (root / "include" / "walzhik.h").read_text(encoding="ascii")
    return {"version": _build.version(header), "commit": at, "kit": kit(root), "gate": gate(root, at)}


def programs(root: Path) -> list[str]:
    """The proved programs of a tree, by crates.txt."""
    crates = (root / "crates.txt").read_text(encoding="ascii")
    return [name for name in PROGRAMS if re.search(rf"^{name}:", crates, re.MULTILINE)]


def proved(root: Path) -> list[str]:
    """The files that the proofs of a tree leave: programs and archives."""
    archives = [f"target/staticlib/{path.name}" for path in _build.archives(root)]
    return [*(f"target/bin/{name}" for name in programs(root)), *archives]


def _newest(root: Path) -> Path:
    """The newest source of a tree. Folders do not count: in a copy they are as old as the copy. Nor does what the kit makes in out/."""
    within = [root / name for name in SOURCES if name != "crates"]
    within += [path for path in (root / "crates").glob("*/*") if path.name != "out"]
    inside = (path for part in within for path in (part, *part.rglob("*")) if path.is_file())
    return max(inside, key=lambda path: path.stat().st_mtime_ns)


def unproved(root: Path) -> list[str]:
    """Why a tree is not proved as it stands, in words: what is missing, or older than a source."""
    missing = [f"{name} is missing" for name in proved(root) if not (root / name).exists()]
    if missing:
        return missing
    newest, stamp = _newest(root), root / STAMP
    changed = newest.stat().st_mtime_ns
    if stamp.exists() and stamp.stat().st_mtime_ns >= changed:
        return []
    older = [name for name in proved(root) if (root / name).stat().st_mtime_ns < changed]
    return [f"{name} is older than {newest.relative_to(root)}" for name in older]


def soname(archive: Path, root: Path) -> str:
    """The name by which programs look for an archive's shared object."""
    major = _build.version((root / "include" / "walzhik.h").read_text(encoding="ascii")).partition(".")[0]
    return f"{archive.stem}.so.{major}"


def made(root: Path, origin: str, folder: Path) -> Path:
    """What a record names as the origin of a file: in the tree, or linked from its archives into a folder."""
    if not origin.startswith(f"{LINKED}/"):
        return root / origin
    into = folder / origin.partition("/")[2]
    if origin == ALL_CALLS:
        _build.link(_build.archives(root), into)
        return into
    for archive in _build.archives(root):
        if soname(archive, root) == into.name:
            _build.link([archive], into, into.name)
            return into
    raise ValueError(f"no archive of {root} has the shared object {into.name}")


def record(root: Path, package: str, tree: Path, files: Sequence[tuple[str, str]]) -> Record:
    """The record of a package whose files lie under a folder, by their paths and origins."""
    held = [
        Held(digest(root / origin if path == NOT_INSTALLED else tree / path.lstrip("/")), path, origin)
        for path, origin in files
    ]
    return Record({"package": package, **identity(root)}, tuple(held))


def differences(found: Record, folder: Path) -> Iterator[str]:
    """In words, each file of a record that is not as the record says; the record lies in the folder."""
    for held in found.files:
        if held.path == NOT_INSTALLED:
            continue
        path = folder / held.path
        if not path.exists():
            yield f"{path} is missing"
        elif digest(path) != held.digest:
            yield f"{path} differs: it has the SHA-256 {digest(path)}, the record {held.digest}"


def main(arguments: Sequence[str]) -> int:
    """Say why the tree that is named is not proved as it stands; nothing where it is."""
    found = unproved(Path(arguments[0]))
    for words in found:
        print(f"walzhik: {words}", file=sys.stderr)
    if found:
        print(
            "walzhik: prove it first: ./walzhik --version sets up all that is missing, .ci/run proves all",
            file=sys.stderr,
        )
    return UNUSABLE if found else 0


if __name__ == "__main__":
    sys.exit(main(sys.argv[1:]))
