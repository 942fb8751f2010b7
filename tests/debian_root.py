"""A fresh root of Debian bookworm, and Debian's packages of this tree."""

from __future__ import annotations

import re
import shutil
import subprocess
from collections.abc import Iterator, Sequence
from contextlib import contextmanager
from pathlib import Path

from building import ROOT, ended

MADE = ("bin", "staticlib", "lib")  # of target/, what packages are made from
VIRTUAL = ("r-api-4.0",)
NEEDED = re.compile(r"([a-z0-9][a-z0-9.+-]+)(?::any)?(?: \([^)]*\))?(?:, |$)")
# Debian's SciPy brings a compiler and Boost: the root has neither, nor pages of others.
WITHOUT = ("/usr/lib/gcc/*", "/usr/include/*", "/usr/share/man/*", "/usr/share/doc/*", "/usr/share/locale/*")
COMPILERS = ("cc", "c++", "*gcc*", "*g++*", "*cpp*", "c89*", "c99*")
KEPT = ("/usr/include/walzhik*", "/usr/share/doc/*walzhik*", "/usr/share/man/man1", "/usr/share/man/man1/walzhik*")
CHANGING = (
    "dev",
    "proc",
    "sys",
    "tmp",
    "run",
    "root",
    "var/cache",
    "var/log",
    "var/lib/apt",
    "var/lib/dpkg",
    "etc/ld.so.cache",
)


def copied(into: Path) -> Path:
    """A copy of the proved tree, with its files' times."""
    listed = ended(["git", "ls-files", "--cached", "--others", "--exclude-standard"]).splitlines()
    for name in (name for name in listed if (ROOT / name).is_file()):
        (into / name).parent.mkdir(parents=True, exist_ok=True)
        shutil.copy2(ROOT / name, into / name)
    for name in MADE:
        shutil.copytree(ROOT / "target" / name, into / "target" / name)
    return into


def build(folder: Path, version: str = "") -> None:
    """Build the packages into a folder; under another version, if one is given."""
    tree = copied(folder / "walzhik")
    changes = tree / "debian/changelog"
    if version:
        changes.write_text(re.sub(r"\(\S+\)", f"({version})", changes.read_text(encoding="utf-8"), count=1), "utf-8")
    commit = ended(["git", "rev-parse", "HEAD"]).strip()
    command = f"cd {tree} && WALZHIK_COMMIT={commit} dpkg-buildpackage -us -uc -b"
    ended(["bash", "-c", command])
    shutil.rmtree(tree)


def depends(packages: Sequence[Path]) -> list[str]:
    """What packages need beside each other."""
    own = {path.name.partition("_")[0] for path in packages}
    found = {name for path in packages for name in NEEDED.findall(ended(["dpkg-deb", "-f", path, "Depends"]).strip())}
    return sorted(found - own - set(VIRTUAL))


class Root:
    """A root, in which commands run with the network cut."""

    def __init__(self, folder: Path) -> None:
        self.folder = folder

    def run(self, script: str) -> str:
        """What a script prints: no network but the machine's own."""
        inside = f"ip link set lo up && exec env -i PATH=/usr/sbin:/usr/bin:/sbin:/bin HOME=/tmp LC_ALL=C.UTF-8 DEBIAN_FRONTEND=noninteractive chroot {self.folder} bash -c '. /tmp/script'"
        (self.folder / "tmp/script").write_text(f"set -eu; cd /tmp\n{script}\n", encoding="utf-8")
        return ended(["unshare", "-n", "bash", "-c", inside])

    def put(self, *files: Path) -> None:
        """Copy files into the root's /tmp."""
        for path in files:
            shutil.copy(path, self.folder / "tmp")

    def files(self) -> set[str]:
        """All files that stay as they are unless a package changes them."""
        skipped = [word for name in CHANGING for word in ("-path", f"./{name}", "-prune", "-o")]
        said = ended(["bash", "-c", 'cd "$1" && shift && find . "$@"', "-", self.folder, *skipped, "-print"])
        return set(said.splitlines())


@contextmanager
def fresh_root(folder: Path, packages: Sequence[str]) -> Iterator[Root]:
    """A minimal root with these packages of Debian, which is removed at the end."""
    options = [f"--dpkgopt=path-exclude={path}" for path in WITHOUT]
    options += [f"--dpkgopt=path-include={path}" for path in KEPT]
    options += [
        "--dpkgopt=force-unsafe-io",
        '--aptopt=Apt::Install-Recommends "false"',
        f"--include={','.join(packages)}",
    ]
    try:
        ended(["mmdebstrap", "--quiet", "--mode=root", "--variant=minbase", *options, "bookworm", folder])
        for path in (path for name in COMPILERS for path in (folder / "usr/bin").glob(name)):
            path.unlink()
        yield Root(folder)
    finally:
        subprocess.run(["rm", "-rf", "--one-file-system", str(folder)], check=True)
