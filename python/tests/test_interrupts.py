"""Ctrl-C: the command ends without a traceback, also while it is still starting. The interrupt comes from a module that
is imported at that moment, so that no test depends on time.
"""

from __future__ import annotations

import os
import signal
import subprocess
import sys
from collections.abc import Iterator
from pathlib import Path

import pytest
from running import ROOT

from walzhik.cli import INTERRUPTED

SENDS = "import os, signal\nos.kill(os.getpid(), signal.SIGINT)\n"
# A module that stands in for another one, sends the interrupt, and is then the other one after all.
STANDS_IN = SENDS + (
    "import importlib, sys\n"
    "sys.path.remove(os.path.dirname(os.path.abspath(__file__)))\n"
    "del sys.modules[__name__]\n"
    "sys.modules[__name__] = importlib.import_module(__name__)\n"
)
DIVIDE = ("indices", "examples/tucson/oak.rwl", "--fit")


@pytest.fixture(autouse=True)
def linked(tmp_path_factory: pytest.TempPathFactory) -> Iterator[None]:
    """The command finds nothing to set up, so that it says nothing, whatever other tests build."""
    from building import archives_at_rest

    with archives_at_rest(tmp_path_factory.getbasetemp()):
        yield


def interrupted(folder: Path, module: str, text: str, *start: str, is_ignored: bool = False) -> tuple[int, str]:
    """The status and the words of a command during whose start a module sends the interrupt."""
    (folder / f"{module}.py").write_text(text)

    def disposition() -> None:
        signal.signal(signal.SIGINT, signal.SIG_IGN if is_ignored else signal.SIG_DFL)

    ended = subprocess.run(
        [*start, *DIVIDE],
        cwd=ROOT,
        env={**os.environ, "PYTHONPATH": f"{folder}{os.pathsep}{ROOT / 'python' / 'src'}"},
        stdout=subprocess.DEVNULL,
        stderr=subprocess.PIPE,
        text=True,
        preexec_fn=disposition,
        check=False,
    )
    return ended.returncode, ended.stderr


@pytest.mark.parametrize("module", ["click", "cffi", "numpy"])
@pytest.mark.parametrize("start", [("./walzhik",), (sys.executable, "-m", "walzhik")], ids=["launcher", "module"])
def test_while_modules_are_loaded(tmp_path: Path, module: str, start: tuple[str, ...]) -> None:
    status, words = interrupted(tmp_path, module, STANDS_IN, *start)
    assert status == -signal.SIGINT and words == ""


def test_while_python_itself_starts(tmp_path: Path) -> None:
    """The launcher has it ignored that early, so that the command goes on."""
    status, words = interrupted(tmp_path, "sitecustomize", SENDS, "./walzhik")
    assert status == 0 and "Traceback" not in words


def test_within_the_command(tmp_path: Path) -> None:
    status, words = interrupted(tmp_path, "scipy", STANDS_IN, "./walzhik")
    assert status == INTERRUPTED and "Traceback" not in words


def test_what_tests_start_in_the_background_can_be_interrupted() -> None:
    """`nohup .ci/run &` starts the tests with interrupts ignored; what they start in turn must not inherit that."""
    tests = str(Path(__file__).parent)
    asks = "import signal; print(signal.getsignal(signal.SIGINT) == signal.SIG_IGN)"
    code = f"import sys; sys.path.insert(0, {tests!r}); import conftest, subprocess; "
    code += f"subprocess.run([sys.executable, '-c', {asks!r}], check=True)"

    def ignored() -> None:
        signal.signal(signal.SIGINT, signal.SIG_IGN)

    command = [sys.executable, "-c", code]
    said = subprocess.run(command, preexec_fn=ignored, capture_output=True, text=True, check=True)
    assert said.stdout == "False\n"


@pytest.mark.parametrize("module", ["click", "scipy"])
def test_an_interrupt_that_is_ignored_stays_so(tmp_path: Path, module: str) -> None:
    status, words = interrupted(tmp_path, module, STANDS_IN, "./walzhik", is_ignored=True)
    assert status == 0 and "Traceback" not in words
