"""What the tests of the data bank share: a bank of 60 files with everything in it that a laboratory sends, runs of the
command in processes of their own, and what a run has left, to be compared byte for byte.
"""

from __future__ import annotations

import csv
import io
import os
import socket
import subprocess
import sys
from pathlib import Path
from time import monotonic, sleep
from types import TracebackType
from typing import Any

import pytest
from running import ROOT

FILES, SERIES, RINGS = 60, 3, 60
THREADS = ("OMP_NUM_THREADS", "OPENBLAS_NUM_THREADS", "MKL_NUM_THREADS")
MOST_SECONDS = 120  # of a run, so that one that hangs is seen
DAMAGED = "site000/w0004.rwl.gz"
REFUSED = "site000/w0007.rwl"
WINDOWS = "site000/w0008.rwl"
SHORT = "site001/w0050.rwl"
SOON_SECONDS = 4  # that a disturbed run waits for workers that are gone
# The command, disturbed when so many files are done: a worker of its own or given processes are killed, or the command
# itself gets a signal.
DISTURBED = f"""
import os, signal, sys
from walzhik.bank import cluster, run
from walzhik.bank.progress import Progress
from walzhik.cli import main
at, what = int(sys.argv[1]), sys.argv[2]
run.GRACE_SECONDS = {SOON_SECONDS}
if "SIG" not in what:
    cluster.ALONE_SECONDS = {SOON_SECONDS}
advance = Progress.advance
"""
DISTURBED += """

def disturbed(self):
    advance(self)
    if self.done == at:
        for each in what.split(","):
            if each == "worker":
                each = open(f"/proc/self/task/{os.getpid()}/children").read().split()[0]
            if each.isdigit():
                os.kill(int(each), signal.SIGKILL)
            else:
                os.kill(os.getpid(), signal.Signals[each])

Progress.advance = disturbed
main(sys.argv[3:])
"""


def environment() -> dict[str, str]:
    """The environment of a process with the package, which says nothing of threads."""
    plain = {name: value for name, value in os.environ.items() if name not in THREADS}
    return plain | {"PYTHONPATH": str(ROOT / "python" / "src"), "WALZHIK_ROOT": str(ROOT)}


def started(*arguments: object, before: tuple[str, ...] = (), **given: Any) -> subprocess.CompletedProcess[str]:
    """The command in a process of its own, from the checkout's root."""
    return python("-m", "walzhik", "bank", *arguments, before=before, **given)


def disturbed(at: int, what: str, *arguments: object) -> subprocess.CompletedProcess[str]:
    """The command, disturbed after so many files."""
    return python("-c", DISTURBED, at, what, "bank", *arguments)


def python(*arguments: object, before: tuple[str, ...] = (), **given: Any) -> subprocess.CompletedProcess[str]:
    """A Python of its own; `before` is a command that starts it."""
    called = [*before, sys.executable, *map(str, arguments)]
    options: dict[str, Any] = {"cwd": ROOT, "env": environment(), "capture_output": True, "text": True}
    options |= {"timeout": MOST_SECONDS} | given
    return subprocess.run(called, check=False, **options)


@pytest.fixture(scope="module")
def bank(tmp_path_factory: pytest.TempPathFactory) -> Path:
    """A bank of 60 files."""
    return make_bank(tmp_path_factory.mktemp("bank") / "in")


@pytest.fixture(scope="module")
def undisturbed(bank: Path) -> Path:
    """What one worker leaves."""
    output = bank.parent / "undisturbed"
    ended = started(bank, output, "--workers", 1)
    assert ended.returncode == 1, ended.stderr
    assert f"{FILES} files: {(FILES - 2) * SERIES} of {(FILES - 2) * SERIES + 1} series went well" in ended.stderr
    return output


def free_port() -> int:
    """A port of loopback that nobody has now."""
    with socket.create_server(("127.0.0.1", 0)) as taken:
        port: int = taken.getsockname()[1]
    return port


class Cluster:
    """A Dask scheduler and workers, processes of their own on loopback, which are ended at the end.

    Parameters
    ----------
    folder : Path
        For their logs and what they keep.
    kind : {"tcp", "tls"}
    options : tuple of str
        More arguments of the scheduler and the workers.
    """

    def __init__(self, folder: Path, kind: str = "tcp", options: tuple[str, ...] = ()) -> None:
        self.folder, self.options = folder, options
        folder.mkdir(parents=True, exist_ok=True)
        port = free_port()
        self.address = f"{kind}://127.0.0.1:{port}"
        self.processes: list[subprocess.Popen[bytes]] = []
        host = f"{kind}://127.0.0.1" if kind == "tls" else "127.0.0.1"
        self.scheduler = self._start("scheduler", "--host", host, "--port", str(port), "--no-dashboard", *options)

    def worker(self, *arguments: str, has_nanny: bool = False, has_package: bool = True) -> subprocess.Popen[bytes]:
        """Start a worker with one thread."""
        nanny = "--nanny" if has_nanny else "--no-nanny"
        place = str(self.folder / f"dask{len(self.processes)}")
        given = (self.address, "--nthreads", "1", "--no-dashboard", nanny, "--local-directory", place)
        return self._start("worker", *given, *self.options, *arguments, has_package=has_package)

    def log(self, process: subprocess.Popen[bytes]) -> str:
        """What a process has said."""
        return (self.folder / f"{self.processes.index(process)}.log").read_text()

    def _start(self, kind: str, *arguments: str, has_package: bool = True) -> subprocess.Popen[bytes]:
        made = environment() | dict.fromkeys(THREADS, "1")
        if not has_package:
            del made["PYTHONPATH"]
        with (self.folder / f"{len(self.processes)}.log").open("wb") as log:
            called = [sys.executable, f"/usr/bin/dask-{kind}", *arguments]
            process = subprocess.Popen(called, env=made, stdout=log, stderr=log, cwd=self.folder)
        self.processes.append(process)
        return process

    def wait(self, count: int) -> None:
        """Wait until so many workers have come, by what the scheduler says of it."""
        end = monotonic() + MOST_SECONDS
        while self.log(self.scheduler).count("Register worker") < count:
            assert monotonic() < end and self.scheduler.poll() is None, self.log(self.scheduler)
            sleep(0.02)

    def __enter__(self) -> Cluster:
        return self

    def __exit__(self, kind: type[BaseException] | None, error: BaseException | None, at: TracebackType | None) -> None:
        for process in reversed(self.processes):
            process.terminate()
        for process in self.processes:
            try:
                process.wait(10)
            except subprocess.TimeoutExpired:
                process.kill()
                process.wait()


def make_bank(folder: Path) -> Path:
    """60 files; one is damaged, one refused, one is from Windows, one has a series of a single ring."""
    import make_bank as generator

    generator.make(folder, FILES, SERIES, RINGS, seed=1)
    packed = folder / DAMAGED
    packed.write_bytes(packed.read_bytes()[:-20])
    (folder / REFUSED).write_bytes((folder / REFUSED).read_bytes().replace(b"-9999", b" 9999"))
    (folder / WINDOWS).write_bytes((folder / WINDOWS).read_bytes().replace(b"\n", b"\r\n"))
    with (folder / SHORT).open("ab") as file:
        file.write(b"ONE     1990    12 -9999\n")
    return folder


def report(output: Path) -> list[dict[str, str]]:
    """The lines of the report by its header."""
    return list(csv.DictReader(io.StringIO((output / "report.csv").read_text("utf-8"))))


def left(output: Path) -> dict[str, object]:
    """All that a run has left but the page and the report's seconds."""
    found: dict[str, object] = {}
    for path in sorted(output.rglob("*")):
        if path.is_file() and path.name != "report.html":
            found[str(path.relative_to(output))] = path.read_bytes()
    found["report.csv"] = [{key: row[key] for key in row if key != "seconds"} for row in report(output)]
    return found


def refusals(output: Path) -> dict[tuple[str, str], str]:
    """Every refusal by file and series."""
    return {(row["file"], row["series"]): row["refusal"] for row in report(output) if row["refusal"]}
