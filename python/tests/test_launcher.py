"""The launcher and the installation: a first run sets up what is missing and says so, later runs find nothing left to
do, two at once don't spoil each other, and pip installs the package without a network. The Rattle kit and Debian's
tools are stood in for by scripts that note what they were asked for.
"""

from __future__ import annotations

import os
import shutil
import subprocess
import sys
import sysconfig
from pathlib import Path

import pytest
from running import ROOT

from walzhik import __version__

SHEET = "examples/sheets/w1.sheet"
LIBRARIES = sorted(path.stem for path in (ROOT / "include").glob("*.h"))
PROGRAMS = ["sheet", "tucson"]
FIRST = "checkout: all check --jobs 4"  # one call for all proofs
BUILDS = [*(f"{name}: run" for name in PROGRAMS), *(f"{name}: lib" for name in LIBRARIES)]
KIT = """#!/usr/bin/env bash
name=${{PWD##*/}}
echo "$name: $*" >> "{notes}"
case $1 in
all)
    sleep {seconds}
    for name in $(sed -n 's/[ :].*//p' crates.txt); do printf '== %s\\nproved\\n' "$name"; done ;;
run) mkdir -p out/incremental && cp "{root}/target/bin/$name" out/ ;;
lib) mkdir -p out/incremental && cp "{root}/target/staticlib/lib$name.a" out/ ;;
esac
"""


def script(path: Path, text: str) -> None:
    path.write_text(text)
    path.chmod(0o755)


class Checkout:
    """A fresh checkout in a folder of its own, with a kit that copies what is built already."""

    def __init__(self, folder: Path, seconds: str = "0") -> None:
        self.root, self.tools, self.notes = folder / "checkout", folder / "tools", folder / "notes"
        self.tools.mkdir()
        self.notes.touch()
        for name in ("include", "python/src", "examples/sheets", ".ci"):
            shutil.copytree(ROOT / name, self.root / name, ignore=shutil.ignore_patterns("__pycache__"))
        shutil.copy(ROOT / "walzhik", self.root)
        for name in [*PROGRAMS, "rings", *LIBRARIES]:
            (self.root / "crates" / name).mkdir(parents=True)
        self.name_crates("")
        script(self.tools / "rt", KIT.format(notes=self.notes, root=ROOT, seconds=seconds))

    def name_crates(self, others: str) -> None:
        """Write the table of crates: these lines, and the libraries."""
        static = "".join(f"{name} staticlib: above\n" for name in LIBRARIES)
        (self.root / "crates.txt").write_text(f"{others}{static}")

    def environment(self) -> dict[str, str]:
        left_out = ("WALZHIK_ROOT", "PYTHONPATH", "RT_JOBS")
        kept = {name: value for name, value in os.environ.items() if name not in left_out}
        return kept | {"PATH": f"{self.tools}:{os.environ['PATH']}"}

    def start(self, *arguments: str) -> subprocess.Popen[str]:
        command = [str(self.root / "walzhik"), *arguments]
        pipes = {"stdout": subprocess.PIPE, "stderr": subprocess.PIPE, "text": True}
        return subprocess.Popen(command, cwd=self.root, env=self.environment(), **pipes)  # type: ignore

    def run(self, *arguments: str) -> tuple[int, str, str]:
        process = self.start(*arguments)
        out, err = process.communicate()
        return process.returncode, out, err

    def asked(self) -> list[str]:
        return self.notes.read_text().splitlines()


@pytest.fixture
def checkout(tmp_path: Path) -> Checkout:
    return Checkout(tmp_path)


def test_the_first_run_sets_up_and_says_so(checkout: Checkout) -> None:
    status, out, err = checkout.run("explain", SHEET)
    assert status == 0 and out.startswith("Accepted: ")
    assert checkout.asked() == [FIRST, *BUILDS]
    assert "proving and building the programs and the libraries" in err and "linking the shared object" in err
    assert checkout.run("explain", SHEET) == (0, out, "") and len(checkout.asked()) == 1 + len(BUILDS)


def test_it_shows_how_far_it_is(checkout: Checkout) -> None:
    """Crates proved of how many, seconds left by the table; the kit's own lines are in the log alone."""
    checkout.name_crates("base:\nabove: base\nsheet: above\ntucson: base\nother: base\n")
    (checkout.root / ".ci/times").write_text("# seconds\nwhole 40\nbase 0\nabove 100\nsheet 100\n")
    _, _, err = checkout.run("explain", SHEET)
    assert (
        "walzhik: 1 of 6 crates proved, about 40 s left\n" in err and "walzhik: 6 of 6 crates proved, about 0 s" in err
    )
    assert "== " not in err and "== above\n" in (checkout.root / "target/lib/log").read_text()
    shutil.rmtree(checkout.root / "target")
    shutil.rmtree(checkout.root / "crates/sheet/out")
    (checkout.root / ".ci/times").unlink()
    assert "walzhik: 6 of 6 crates proved\n" in checkout.run("explain", SHEET)[2]


def test_a_program_of_the_table_of_crates_is_built_too(checkout: Checkout) -> None:
    checkout.name_crates("rings: sheet\n")
    status, _, _ = checkout.run("explain", SHEET)
    assert status == 0 and checkout.asked() == [FIRST, *BUILDS[:2], "rings: run", *BUILDS[2:]]


def test_a_kit_that_leaves_no_file_is_told(checkout: Checkout) -> None:
    """All is proved, but no program is there: the set-up ends with a status that says so, and is done again by the next run."""
    script(checkout.tools / "rt", f'#!/bin/sh\necho "${{PWD##*/}}: $*" >>"{checkout.notes}"\n')
    status, out, err = checkout.run("explain", SHEET)
    assert status == 2 and not out and checkout.asked() == [FIRST, BUILDS[0]]
    assert "cannot stat 'crates/sheet/out/sheet'" in err and "failed. All that it said is in" in err
    assert not (checkout.root / "target/lib/built").exists()


def test_how_many_crates_at_a_time_can_be_said(checkout: Checkout, monkeypatch: pytest.MonkeyPatch) -> None:
    environment = checkout.environment() | {"RT_JOBS": "1"}
    monkeypatch.setattr(checkout, "environment", lambda: environment)
    checkout.run("explain", SHEET)
    assert checkout.asked()[0] == FIRST.replace("4", "1")


def test_a_newer_archive_is_linked_again(checkout: Checkout) -> None:
    checkout.run("explain", SHEET)
    shared = checkout.root / "target/lib/libwalzhik.so"
    os.utime(shared, (1, 1))
    status, _, err = checkout.run("explain", SHEET)
    assert status == 0 and err == "walzhik: linking the shared object for Python\n" and shared.stat().st_mtime > 1


def test_a_newer_source_is_proved_again_once(checkout: Checkout) -> None:
    checkout.run("explain", SHEET)
    before = len(checkout.asked())
    for path in [
        *checkout.root.glob("target/bin/*"),
        *checkout.root.glob("target/staticlib/*"),
        checkout.root / "target/lib/built",
    ]:
        os.utime(path, (2, 2))
    assert "proving" in checkout.run("explain", SHEET)[2] and checkout.asked()[before:] == BUILDS
    assert "proving" not in checkout.run("explain", SHEET)[2] and checkout.asked()[before:] == BUILDS


def test_two_at_once_set_up_once(tmp_path: Path) -> None:
    checkout = Checkout(tmp_path, seconds="0.3")
    started = [checkout.start("explain", SHEET) for _ in range(3)]
    ended = [(process.communicate()[0], process.returncode) for process in started]
    assert len({out for out, _ in ended}) == 1 and {status for _, status in ended} == {0}
    assert checkout.asked().count(FIRST) == 1
    left = sorted(path.name for path in (checkout.root / "target/lib").glob("[!_]*"))
    assert left == ["built", "libwalzhik.so", "lock", "log"]


def test_it_runs_from_any_folder_and_through_a_link(checkout: Checkout, tmp_path: Path) -> None:
    checkout.run("explain", SHEET)
    (tmp_path / "link").symlink_to(checkout.root / "walzhik")
    (tmp_path / "click.py").write_text("raise SystemExit('the wrong module')\n")
    command = [str(tmp_path / "link"), "explain", str(ROOT / SHEET)]
    ended = subprocess.run(
        command, cwd=tmp_path, env=checkout.environment(), capture_output=True, text=True, check=False
    )
    assert ended.returncode == 0 and ended.stdout.startswith("Accepted: ")


def test_without_the_kit_it_says_what_to_do(checkout: Checkout) -> None:
    script(checkout.tools / "rt", "#!/bin/sh\necho 'curve is not proved'\nexit 1\n")
    status, out, err = checkout.run("explain", SHEET)
    assert (status, out) == (2, "") and "curve is not proved" in err and ".ci/build sheet tucson walzhik" in err
    script(checkout.tools / "rt", "#!/bin/sh\necho '== sheet'\n")
    status, out, err = checkout.run("explain", SHEET)
    assert (status, out) == (2, "") and "failed. All that it said is in" in err
    launcher = (checkout.root / "walzhik").read_text().replace("command -v rt", "command -v no-such-kit")
    (checkout.root / "walzhik").write_text(launcher)
    status, out, err = checkout.run("explain", SHEET)
    assert (status, out) == (2, "") and "the Rattle kit is not here" in err


def without_modules(checkout: Checkout, folder: Path) -> None:
    """The launcher with its modules in a folder where only apt-get's stand-in puts them."""
    folder.mkdir()
    launcher = (checkout.root / "walzhik").read_text()
    assert "modules=/usr/lib/python3/dist-packages" in launcher
    (checkout.root / "walzhik").write_text(
        launcher.replace("modules=/usr/lib/python3/dist-packages", f"modules={folder}")
    )
    made = " ".join(f"{folder}/{name}" for name in ("numpy", "scipy", "matplotlib", "cffi", "click", "tqdm"))
    note = f'#!/bin/sh\necho "apt-get $*" >> "{checkout.notes}"\n[ "$1" = update ] || touch {made}\n'
    script(checkout.tools / "apt-get", note)


def test_missing_packages_are_installed_where_it_may(checkout: Checkout, tmp_path: Path) -> None:
    without_modules(checkout, tmp_path / "modules")
    script(checkout.tools / "id", "#!/bin/sh\necho 0\n")
    status, _, err = checkout.run("explain", SHEET)
    assert status == 0 and "installing the Debian packages python3-numpy python3-scipy" in err
    update, install = checkout.asked()[:2]
    assert update == "apt-get update -qq" and install.endswith(
        "python3-matplotlib python3-cffi python3-click python3-tqdm"
    )
    assert f"with: {update} && {install} (WALZHIK_INSTALL=no forbids it)\n" in err


def test_what_apt_says_is_shown_where_it_fails(checkout: Checkout, tmp_path: Path) -> None:
    without_modules(checkout, tmp_path / "modules")
    script(checkout.tools / "id", "#!/bin/sh\necho 0\n")
    noisy = (checkout.tools / "apt-get").read_text() + "echo 'Unpacking all of it'\n"
    script(checkout.tools / "apt-get", noisy)
    assert "Unpacking" not in checkout.run("explain", SHEET)[2]
    shutil.rmtree(tmp_path / "modules")
    script(checkout.tools / "apt-get", "#!/bin/sh\necho 'no such package'\nexit 100\n")
    status, out, err = checkout.run("explain", SHEET)
    assert (status, out) == (2, "") and "no such package" in err and "apt-get could not install them" in err


@pytest.mark.parametrize("said", ["no", "NO", "0"])
def test_nothing_is_installed_where_that_is_forbidden(
    checkout: Checkout, tmp_path: Path, monkeypatch: pytest.MonkeyPatch, said: str
) -> None:
    without_modules(checkout, tmp_path / "modules")
    script(checkout.tools / "id", "#!/bin/sh\necho 0\n")
    monkeypatch.setenv("WALZHIK_INSTALL", said)
    status, out, err = checkout.run("explain", SHEET)
    assert (status, out) == (2, "") and checkout.asked() == []
    assert "type this, then start again: apt-get update && apt-get install" in err and "python3-tqdm\n" in err


def test_missing_packages_are_named_where_it_may_not(checkout: Checkout, tmp_path: Path) -> None:
    without_modules(checkout, tmp_path / "modules")
    script(checkout.tools / "id", "#!/bin/sh\necho 1000\n")
    status, out, err = checkout.run("explain", SHEET)
    assert (status, out) == (2, "") and checkout.asked() == []
    assert "sudo apt-get install python3-numpy python3-scipy python3-matplotlib python3-cffi python3-click" in err


def test_the_screen_alone_needs_its_packages(checkout: Checkout, tmp_path: Path) -> None:
    without_modules(checkout, tmp_path / "modules")
    script(checkout.tools / "id", "#!/bin/sh\necho 1000\n")
    needed = "python3-flask python3-waitress"
    assert needed in checkout.run("view", "--help")[2] and needed not in checkout.run("explain", SHEET)[2]


def test_pip_installs_it_without_a_network(tmp_path: Path) -> None:
    """Into a folder of its own; the installed package needs no checkout."""
    source = tmp_path / "source"
    for name in ("include", "python", "target/staticlib", "target/bin"):
        shutil.copytree(ROOT / name, source / name, ignore=shutil.ignore_patterns("__pycache__", ".*"))
    options = ["--quiet", "--no-index", "--no-build-isolation", "--no-deps", "--disable-pip-version-check"]
    pip = [sys.executable, "-m", "pip"]
    subprocess.run(
        [*pip, "wheel", *options, "-w", str(tmp_path), str(source / "python")], check=True, capture_output=True
    )
    [wheel] = tmp_path.glob("*.whl")
    machine = sysconfig.get_platform().replace("-", "_").replace(".", "_")
    assert wheel.name == f"walzhik-{__version__}-py3-none-{machine}.whl" and "x86_64" in machine
    subprocess.run(
        [*pip, "install", *options, "--target", str(tmp_path / "site"), str(wheel)], check=True, capture_output=True
    )
    shutil.rmtree(source)
    code = "import walzhik, walzhik.sheet as s; print(walzhik.Space([0, 1, 3], [2, 2], [1]).n, s.printed(b''))"
    environment = {"PATH": os.environ["PATH"], "PYTHONPATH": str(tmp_path / "site")}
    said = subprocess.run(
        [sys.executable, "-c", code], cwd=tmp_path, env=environment, capture_output=True, text=True, check=True
    )
    assert said.stdout == "4 b'no=10,1\\n'\n"
    assert (tmp_path / "site" / "walzhik" / "py.typed").exists()


def test_without_the_engine_it_says_how_to_build_it(tmp_path: Path) -> None:
    environment = os.environ | {"PYTHONPATH": str(ROOT / "python" / "src"), "WALZHIK_ROOT": str(tmp_path)}
    command = [sys.executable, "-m", "walzhik", "explain", str(ROOT / SHEET)]
    ended = subprocess.run(command, cwd=tmp_path, env=environment, capture_output=True, text=True, check=False)
    assert ended.returncode == 2 and "The engine is not built" in ended.stderr and "./walzhik" in ended.stderr
