"""Lays the files of a proved tree out as the packages have them, and writes each package's record of what was proved.

usage: stage.py install|record MULTIARCH
"""

from __future__ import annotations

import os
import shutil
import subprocess
import sys
from email.utils import formatdate
from pathlib import Path

ROOT = Path(__file__).resolve().parents[1]
DEBIAN = ROOT / "debian"
sys.path.insert(0, str(ROOT / "python" / "src" / "walzhik"))

import _build  # noqa: E402
import _proof  # noqa: E402

MULTIARCH = sys.argv[2]
VERSION = _build.version((ROOT / "include" / "walzhik.h").read_text(encoding="ascii"))
MODULES = "usr/lib/python3/dist-packages"
NATIVE = f"{MODULES}/walzhik/_native"
LIBRARIES = f"usr/lib/{MULTIARCH}"
RECORDS = "usr/share/walzhik/proof"
R_LIBRARY = "usr/lib/R/site-library"
ARCHIVES = _build.archives(ROOT)
HEADERS = _build.headers(ROOT / "include")
PAGES = ("README.md", "CHANGELOG.md", "docs/pictures", "docs/screen", "examples")
COMPLETIONS = {
    "bash": "usr/share/bash-completion/completions/walzhik",
    "zsh": "usr/share/zsh/vendor-completions/_walzhik",
    "fish": "usr/share/fish/vendor_completions.d/walzhik.fish",
}
LEFT_OUT = shutil.ignore_patterns("__pycache__", "_native", ".*")
PLAIN, STARTED = 0o644, 0o755


def put(source: Path, package: str, path: str, mode: int = PLAIN) -> None:
    """Copy a file or a folder of the tree to its place in a package."""
    into = DEBIAN / package / path
    into.parent.mkdir(parents=True, exist_ok=True)
    if source.is_dir():
        shutil.copytree(source, into, ignore=LEFT_OUT, copy_function=shutil.copyfile)
    else:
        shutil.copyfile(source, into)
        into.chmod(mode)


def write(text: str, package: str, path: str) -> None:
    """Write a file of a package."""
    into = DEBIAN / package / path
    into.parent.mkdir(parents=True, exist_ok=True)
    into.write_text(text, encoding="utf-8")


def point(package: str, path: str, at: str) -> None:
    """A link in a package to another file of it, by both paths."""
    link = DEBIAN / package / path
    link.parent.mkdir(parents=True, exist_ok=True)
    link.symlink_to(os.path.relpath(at, os.path.dirname(path)))


def said(*command: str, **variables: str) -> str:
    """What a command prints, with the package's Python modules."""
    environment = os.environ | {"PYTHONPATH": str(DEBIAN / "walzhik" / MODULES)} | variables
    return subprocess.run(command, env=environment, stdout=subprocess.PIPE, text=True, check=True).stdout


def install_command() -> None:
    """The command: Python package, engine, programs, pages, manual page and completion."""
    put(ROOT / "python/src/walzhik", "walzhik", f"{MODULES}/walzhik")
    put(DEBIAN / "walzhik.sh", "walzhik", "usr/bin/walzhik", STARTED)
    for name in _proof.programs(ROOT):
        put(ROOT / "target/bin" / name, "walzhik", f"usr/bin/walzhik-{name}", STARTED)
        put(DEBIAN / "programs.1", "walzhik", f"usr/share/man/man1/walzhik-{name}.1")
    for name in _build.PROGRAMS:
        point("walzhik", f"{NATIVE}/{name}", f"usr/bin/walzhik-{name}")
    native = DEBIAN / "walzhik" / NATIVE
    _proof.made(ROOT, _proof.ALL_CALLS, native).chmod(PLAIN)
    for header in HEADERS:
        put(header, "walzhik", f"{NATIVE}/{header.name}")
    _build.declare(native, native)
    point("walzhik", f"{NATIVE}/walzhik{_proof.ENDING}", f"{RECORDS}/walzhik{_proof.ENDING}")
    pages = [*PAGES, *(f"docs/{path.name}" for path in (ROOT / "docs").glob("*.md"))]
    for page in pages:
        put(ROOT / page, "walzhik", f"usr/share/doc/walzhik/{page}")
    write(said(sys.executable, str(DEBIAN / "manual.py"), VERSION), "walzhik", "usr/share/man/man1/walzhik.1")
    for shell, path in COMPLETIONS.items():
        write(said(sys.executable, "-m", "walzhik", _WALZHIK_COMPLETE=f"{shell}_source"), "walzhik", path)


def install_libraries() -> None:
    """Shared objects with their sonames, archives, headers and the file for pkg-config."""
    for archive in ARCHIVES:
        soname = _proof.soname(archive, ROOT)
        full = soname.rpartition(".")[0] + f".{VERSION}"
        folder = DEBIAN / "libwalzhik2" / LIBRARIES
        made = _proof.made(ROOT, f"{_proof.LINKED}/{soname}", folder)
        made.rename(folder / full).chmod(PLAIN)
        point("libwalzhik2", f"{LIBRARIES}/{soname}", f"{LIBRARIES}/{full}")
        point("libwalzhik-dev", f"{LIBRARIES}/{archive.stem}.so", f"{LIBRARIES}/{soname}")
        put(archive, "libwalzhik-dev", f"{LIBRARIES}/{archive.name}")
    for header in HEADERS:
        put(header, "libwalzhik-dev", f"usr/include/{header.name}")
    text = (DEBIAN / "walzhik.pc.in").read_text(encoding="ascii")
    filled = text.replace("@MULTIARCH@", MULTIARCH).replace("@VERSION@", VERSION)
    write(filled, "libwalzhik-dev", f"{LIBRARIES}/pkgconfig/walzhik.pc")


def install_r() -> None:
    """The package for R, over the archives; from a copy, so that nothing is left in the tree."""
    source, library = DEBIAN / "r-source", DEBIAN / "r-walzhik" / R_LIBRARY
    shutil.rmtree(source, ignore_errors=True)
    shutil.copytree(ROOT / "r", source, ignore=LEFT_OUT)
    library.mkdir(parents=True)
    given = {"WALZHIK_LIB": str(ARCHIVES[0].parent), "WALZHIK_INCLUDE": str(ROOT / "include")}
    built = f"--built-timestamp={formatdate(int(os.environ['SOURCE_DATE_EPOCH']))}"
    command = ["R", "CMD", "INSTALL", "--no-test-load", built, f"--library={library}", str(source)]
    subprocess.run(command, env=os.environ | given, check=True)
    (library / "walzhik" / "LICENSE").unlink()  # debian/copyright has its words


def origins(package: str) -> list[tuple[str, str]]:
    """The files of a package that stand on the proofs, by their paths and what they are in the tree."""
    archives = [(_proof.NOT_INSTALLED, f"target/staticlib/{archive.name}") for archive in ARCHIVES]
    if package == "walzhik":
        programs = [(f"/usr/bin/walzhik-{name}", f"target/bin/{name}") for name in _proof.programs(ROOT)]
        return [(f"/{NATIVE}/{_build.LIBRARY}", _proof.ALL_CALLS), *programs, *archives]
    if package == "libwalzhik2":
        linked = [(archive.stem, _proof.soname(archive, ROOT)) for archive in ARCHIVES]
        shared = [(f"/{LIBRARIES}/{stem}.so.{VERSION}", f"{_proof.LINKED}/{soname}") for stem, soname in linked]
        return [*shared, *archives]
    if package == "libwalzhik-dev":
        headers = [(f"/usr/include/{header.name}", f"include/{header.name}") for header in HEADERS]
        return [
            *((f"/{LIBRARIES}/{archive.name}", f"target/staticlib/{archive.name}") for archive in ARCHIVES),
            *headers,
        ]
    return [(f"/{R_LIBRARY}/walzhik/libs/walzhik.so", _proof.COMPILED), *archives]


def write_records() -> None:
    """What was proved, in each package."""
    for package in ("walzhik", "libwalzhik2", "libwalzhik-dev", "r-walzhik"):
        made = _proof.record(ROOT, package, DEBIAN / package, origins(package))
        write(made.text(), package, f"{RECORDS}/{package}{_proof.ENDING}")


def main() -> int:
    if sys.argv[1] == "record":
        write_records()
    else:
        install_command()
        install_libraries()
        install_r()
    return 0


if __name__ == "__main__":
    sys.exit(main())
