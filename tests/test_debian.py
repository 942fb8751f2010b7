"""Debian's packages of this tree: built, looked at by lintian, and used in a fresh root without kit, compiler and network."""

from __future__ import annotations

from pathlib import Path

import pytest
from building import CC, ROOT, Built, ended
from debian_root import Root, build, depends, fresh_root

OLDER = "1.9.9"
PACKAGES = ("libwalzhik-dev", "libwalzhik2", "r-walzhik", "walzhik")
NONE_LEFT = f"apt-get purge -y -qq {' '.join(PACKAGES)}"
INSTALL = "apt-get install -y -qq --no-install-recommends"
EXAMPLES = "/usr/share/doc/walzhik/examples"
DAY = f"""
walzhik indices {EXAMPLES}/tucson/oak.rwl --curve {EXAMPLES}/sheets/roof.sheet --earlywood ROOF04E --latewood ROOF04L -o roof.csv
walzhik fit {EXAMPLES}/tucson/oak.rwl --series ROOF04E -o oak.sheet
walzhik plot oak.sheet {EXAMPLES}/tucson/oak.rwl --series ROOF04E -o oak.png
head -n 2 roof.csv
grep -c = oak.sheet
head -c 4 oak.png | tail -c 3
"""
PAGE = f"""
import re, subprocess, urllib.request
command = ["walzhik", "view", "{EXAMPLES}/tucson/oak.rwl", "--curve", "{EXAMPLES}/sheets/roof.sheet"]
command += ["--earlywood", "ROOF04E", "--latewood", "ROOF04L"]
server = subprocess.Popen(command, stdout=subprocess.PIPE, text=True)
try:
    address = next(found[0] for line in server.stdout if (found := re.search(r"http://\\S+/", line)))
    print(urllib.request.urlopen(address).status, b'"design"' in urllib.request.urlopen(address + "given").read())
finally:
    server.terminate()
"""
R = f"""
library(walzhik)
widths <- read_tucson("{EXAMPLES}/tucson/oak.rwl")
cat(class(ring_indices(widths, fit_curve(widths)))[1], "\\n")
"""


@pytest.fixture(scope="session")
def debs(built: Built, programs: Path, package: None) -> list[Path]:
    """The packages of this tree."""
    return sorted(built.once("debs", build).glob("*.deb"))


@pytest.fixture(scope="session")
def older(built: Built, programs: Path, package: None) -> list[Path]:
    """The same under a lower version."""
    return sorted(built.once("older", lambda path: build(path, OLDER)).glob("*.deb"))


@pytest.mark.long(60)
def test_lintian(debs: list[Path]) -> None:
    """Nothing is said of the packages that debian/ does not answer."""
    assert [path.name.partition("_")[0] for path in debs] == sorted(PACKAGES)
    options = ["--allow-root", "--pedantic", "--display-info", "--fail-on", "error"]
    # That tag takes bytes of machine code for words: which ones, another build changes, so no override fits.
    options += ["--suppress-tags", "spelling-error-in-binary"]
    assert ended(["lintian", *options, *debs]) == ""


def test_what_is_not_proved_is_refused(tmp_path: Path) -> None:
    """A tree without archives, and one whose archives are older than a source, build no package."""
    (tmp_path / "include").mkdir()
    for name in ("include/walzhik.h", "include/walzhik_indices.h", "crates.txt"):
        (tmp_path / name).write_bytes((ROOT / name).read_bytes())
    refuses = ["/usr/bin/python3", ROOT / "python/src/walzhik/_proof.py", tmp_path]
    said = ended(["bash", "-c", '! "$@" 2>&1', "-", *refuses])
    assert "target/staticlib/libwalzhik.a is missing" in said and "target/bin/sheet is missing" in said


def c_program(root: Root) -> None:
    """An example in C over the installed shared library, by pkg-config; the compiler is outside."""
    pkg_config = (
        f"PKG_CONFIG_SYSROOT_DIR={root.folder} PKG_CONFIG_LIBDIR={root.folder}/usr/lib/x86_64-linux-gnu/pkgconfig"
    )
    system = "PKG_CONFIG_ALLOW_SYSTEM_CFLAGS=1 PKG_CONFIG_ALLOW_SYSTEM_LIBS=1"
    words = ended(["bash", "-c", f"{pkg_config} {system} pkg-config --cflags --libs walzhik"]).split()
    plain = [word for word in CC if not word.startswith("-I")]
    ended([*plain, "examples/c/indices.c", *words, "-o", root.folder / "tmp/indices"])
    assert "libwalzhik_indices.so.2" in ended(["readelf", "-d", root.folder / "tmp/indices"])
    assert root.run("./indices") == (ROOT / "examples/c/indices.txt").read_text()


def proof_sees_a_change(root: Root) -> None:
    """`walzhik proof` finds all as recorded, and then one byte that was put behind a program."""
    said = root.run("walzhik proof")
    assert "installed files are as recorded" in said and all(f"package: {name}\n" in said for name in PACKAGES)
    changed = 'cp -p /usr/bin/walzhik-sheet kept; printf x >>/usr/bin/walzhik-sheet; walzhik proof 2>&1 || echo "status $?"; cp -p kept /usr/bin/walzhik-sheet'
    said = root.run(changed)
    assert "/usr/bin/walzhik-sheet differs" in said and said.endswith("status 1\n")


@pytest.mark.long(150)
def test_installed(debs: list[Path], older: list[Path], tmp_path: Path) -> None:
    """An older version is upgraded, every package is used without kit, compiler and network, and nothing is left of them."""
    with fresh_root(tmp_path / "root", depends(debs)) as root:
        root.put(*older, *debs)
        before = root.files()
        assert root.run("command -v rt cc gcc c++ || echo none") == "none\n"
        root.run(f"{INSTALL} ./*_{OLDER}_*.deb")
        root.run(f"rm *_{OLDER}_*.deb && {INSTALL} ./*.deb")
        versions = root.run(f"dpkg-query -W -f '${{Version}}\\n' {' '.join(PACKAGES)}").split()
        assert versions == [debs[0].name.split("_")[1]] * len(PACKAGES)
        assert root.run(DAY) == "series,year,width_mm,curve_mm,index\nROOF04E,1703,1.415,1.500000,943\n5\nPNG"
        (root.folder / "tmp/page.py").write_text(PAGE)
        assert root.run("python3 page.py") == "200 True\n"
        (root.folder / "tmp/use.R").write_text(R)
        assert root.run("Rscript use.R") == "rwi \n"
        c_program(root)
        proof_sees_a_change(root)
        root.run(NONE_LEFT)
        assert root.files() == before
