"""A data bank on a cluster: whatever is killed, late, wrong or unknown there, the outputs are those of one local worker
byte for byte, or words say what is missing. Schedulers and workers are processes of their own on loopback.
"""

from __future__ import annotations

import os
import re
import shutil
import socket
import subprocess
import sys
from collections.abc import Callable, Iterator
from concurrent.futures import ThreadPoolExecutor
from contextlib import suppress
from pathlib import Path
from time import monotonic, sleep

import pytest
from bankruns import FILES, MOST_SECONDS, Cluster, environment
from bankruns import bank, disturbed, left, python, started, undisturbed  # noqa: F401
from running import ROOT, Run

from walzhik.bank.address import address
from walzhik.bank.inputs import found
from walzhik.failures import Unusable

DONE, REFUSED, UNUSABLE, BROKEN_OFF = 0, 1, 2, 3
MIDDLE = 20
NO_FILES = (None, None, None)


@pytest.fixture
def cluster(tmp_path: Path) -> Iterator[Cluster]:
    """A scheduler without the package, and nobody else yet."""
    with Cluster(tmp_path / "cluster") as made:
        yield made


def preload(folder: Path, text: str) -> tuple[str, ...]:
    """The arguments of a worker that first runs a program text."""
    path = folder / "preloaded.py"
    path.write_text(text)
    return "--preload", str(path)


def test_any_folder_and_a_lost_worker(bank: Path, undisturbed: Path, tmp_path: Path, cluster: Cluster) -> None:
    cluster.worker()
    cluster.worker(has_nanny=True)
    cluster.wait(2)
    shutil.copytree(bank, cluster.folder / "in")  # another copy, in the folder where the workers are
    for path in (cluster.folder / "in").rglob("*.rwl"):
        path.write_bytes(path.read_bytes().replace(b"1", b"2"))
    ended = started("in", tmp_path / "out", "--scheduler", cluster.address, cwd=bank.parent)
    assert ended.returncode == REFUSED, ended.stderr
    assert left(tmp_path / "out") == left(undisturbed)
    ended = disturbed(MIDDLE, str(cluster.processes[1].pid), bank, tmp_path / "less", "--scheduler", cluster.address)
    assert ended.returncode == REFUSED, ended.stderr
    assert "1 worker was lost; what it had was done again." in ended.stderr
    assert left(tmp_path / "less") == left(undisturbed)


def test_all_workers_lost(bank: Path, undisturbed: Path, tmp_path: Path, cluster: Cluster) -> None:
    workers = ",".join(str(cluster.worker().pid) for _ in (1, 2))
    cluster.wait(2)
    ended = disturbed(MIDDLE, workers, bank, tmp_path / "out", "--scheduler", cluster.address)
    assert ended.returncode == BROKEN_OFF
    [words] = ended.stderr.splitlines()
    assert re.fullmatch(rf"No worker is left at {cluster.address}. .* (\d+) of {FILES} files are done; .*", words)
    assert started(bank, tmp_path / "out").returncode == REFUSED
    assert left(tmp_path / "out") == left(undisturbed)


def test_an_interrupt_when_all_workers_are_lost(bank: Path, tmp_path: Path, cluster: Cluster) -> None:
    worker = cluster.worker().pid
    cluster.wait(1)
    ended = disturbed(MIDDLE, f"{worker},SIGINT", bank, tmp_path / "out", "--scheduler", cluster.address)
    assert ended.returncode == BROKEN_OFF and "Interrupted. " in ended.stderr


def test_the_scheduler_lost(bank: Path, undisturbed: Path, tmp_path: Path, cluster: Cluster) -> None:
    cluster.worker()
    cluster.wait(1)
    scheduler = str(cluster.scheduler.pid)
    ended = disturbed(MIDDLE, scheduler, bank, tmp_path / "out", "--scheduler", cluster.address)
    assert ended.returncode == BROKEN_OFF
    [words] = ended.stderr.splitlines()
    assert words.startswith(f"The scheduler at {cluster.address} is gone. ") and f"of {FILES} files are done" in words
    assert started(bank, tmp_path / "out").returncode == REFUSED
    assert left(tmp_path / "out") == left(undisturbed)


def test_a_worker_without_the_package(bank: Path, undisturbed: Path, tmp_path: Path, cluster: Cluster) -> None:
    cluster.worker(has_package=False)
    cluster.wait(1)
    ended = started(bank, tmp_path / "out", "--scheduler", cluster.address)
    assert ended.returncode == UNUSABLE and "ModuleNotFoundError: No module named 'walzhik'" in ended.stderr
    cluster.worker()
    cluster.wait(2)
    ended = started(bank, tmp_path / "out", "--scheduler", cluster.address)
    assert ended.returncode == REFUSED, ended.stderr
    assert left(tmp_path / "out") == left(undisturbed)


def test_a_worker_without_the_package_comes_late(
    bank: Path, undisturbed: Path, tmp_path: Path, cluster: Cluster
) -> None:
    """It joins while a worker that can do tasks is at the first of them, which ends when the other has been left out."""
    gate = tmp_path / "gate"
    text = "import time\nfrom pathlib import Path\nfrom walzhik.bank import outputs, task\n\n"
    text += f"def waiting(*given):\n    Path({str(tmp_path / 'begun')!r}).touch()\n"
    text += f"    while not Path({str(gate)!r}).exists():\n        time.sleep(0.02)\n    return outputs.put(*given)\n\n"
    text += "task.put = waiting\n"
    cluster.worker(*preload(tmp_path, text))
    cluster.wait(1)
    called = [sys.executable, "-m", "walzhik", "bank", str(bank), str(tmp_path / "out"), "--scheduler", cluster.address]
    with (tmp_path / "said").open("wb") as said:
        running = subprocess.Popen(called, cwd=ROOT, env=environment(), stderr=said)
        try:
            until(lambda: (tmp_path / "begun").exists(), running)
            cluster.worker(has_package=False)
            until(lambda: "is left out" in (tmp_path / "said").read_text(), running)
            gate.touch()
            assert running.wait(MOST_SECONDS) == REFUSED
        finally:
            running.kill()
            running.wait()
    words = (tmp_path / "said").read_text()
    assert words.count("is left out. ModuleNotFoundError: No module named 'walzhik'") == 1, words
    assert left(tmp_path / "out") == left(undisturbed)


def until(is_so: Callable[[], bool], running: subprocess.Popen[bytes]) -> None:
    """Wait for what must come while a run is under way."""
    end = monotonic() + MOST_SECONDS
    while not is_so():
        assert running.poll() is None and monotonic() < end, "it does not come"
        sleep(0.02)


def test_a_worker_whose_errors_can_not_be_sent(bank: Path, undisturbed: Path, tmp_path: Path, cluster: Cluster) -> None:
    text = "from walzhik.bank import task\n\ndef deeper(*given):\n    return deeper(*given)\n\ntask.put = deeper\n"
    cluster.worker(*preload(tmp_path, text))
    cluster.wait(1)
    ended = disturbed(FILES + 1, "", bank, tmp_path / "out", "--scheduler", cluster.address)
    assert ended.returncode == BROKEN_OFF and "RecursionError" in ended.stderr and "No worker is left" in ended.stderr
    assert started(bank, tmp_path / "out").returncode == REFUSED
    assert left(tmp_path / "out") == left(undisturbed)


def test_a_wrong_copy_on_one_machine(bank: Path, undisturbed: Path, tmp_path: Path, cluster: Cluster) -> None:
    other = tmp_path / "other"
    shutil.copytree(bank, other)
    small = min(found([str(bank)], str(tmp_path / "out")).inputs, key=lambda each: each.size).size
    for each in found([str(other)], str(tmp_path / "out")).inputs:
        if each.size > small:  # the smallest are as they should be: what a worker is asked about first
            Path(each.source).write_bytes(Path(each.source).read_bytes() + b"\n")
    text = "from walzhik.bank import reading, task\n"
    text += f"task.read = lambda source: reading.read(source.replace({str(bank)!r}, {str(other)!r}))\n"
    cluster.worker(*preload(tmp_path, text))
    cluster.wait(1)
    ended = disturbed(FILES + 1, "", bank, tmp_path / "out", "--scheduler", cluster.address)
    words = f"Machine {socket.gethostname()} has another file at {bank}/"
    assert ended.returncode == BROKEN_OFF and words in ended.stderr and "No worker is left" in ended.stderr
    cluster.worker()
    cluster.wait(2)
    ended = started(bank, tmp_path / "out", "--scheduler", cluster.address)
    assert ended.returncode == REFUSED and words in ended.stderr
    assert left(tmp_path / "out") == left(undisturbed)


def test_contents_are_sent_where_files_are_not_shared(
    bank: Path, undisturbed: Path, tmp_path: Path, cluster: Cluster
) -> None:
    text = "from walzhik.bank import outputs, task\n\ndef none(*_, **__):\n    raise SystemExit('it touched a file')\n"
    cluster.worker(*preload(tmp_path, f"{text}\ntask.read = task.put = outputs.keep = none\n"))
    cluster.wait(1)
    ended = started(bank, tmp_path / "out", "--scheduler", cluster.address, "--ship")
    assert ended.returncode == REFUSED, ended.stderr
    assert left(tmp_path / "out") == left(undisturbed)
    ended = started(bank, tmp_path / "out", "--scheduler", cluster.address, "--ship")
    assert f" {FILES} were done before." in ended.stderr
    assert left(tmp_path / "out") == left(undisturbed)


def certified(folder: Path, name: str) -> tuple[str, str, str]:
    """A certificate that signs, and one that it has signed with its key, by the openssl command."""

    def openssl(*arguments: object) -> None:
        subprocess.run(["openssl", *map(str, arguments)], check=True, capture_output=True, cwd=folder)

    authority, signer, certificate, key, asked = (
        folder / f"{name}-{kind}.pem" for kind in ("ca", "ca-key", "cert", "key", "request")
    )
    plain = ("-newkey", "ec", "-pkeyopt", "ec_paramgen_curve:prime256v1", "-nodes", "-days", 2)
    openssl("req", "-x509", *plain, "-subj", f"/CN={name}", "-keyout", signer, "-out", authority)
    openssl("req", *plain[:-2], "-subj", "/CN=walzhik", "-keyout", key, "-out", asked)
    signed = ("-CA", authority, "-CAkey", signer, "-CAcreateserial", "-days", 2, "-out", certificate)
    openssl("x509", "-req", "-in", asked, *signed)
    return str(authority), str(certificate), str(key)


def command_line(files: tuple[str, str, str]) -> tuple[str, ...]:
    return "--tls-ca", files[0], "--tls-cert", files[1], "--tls-key", files[2]


def test_nobody_without_the_certificate(bank: Path, undisturbed: Path, tmp_path: Path) -> None:
    ours, theirs = certified(tmp_path, "ours"), certified(tmp_path, "theirs")
    options = ("--tls-ca-file", ours[0], "--tls-cert", ours[1], "--tls-key", ours[2])
    foreign = ("--tls-ca-file", theirs[0], "--tls-cert", theirs[1], "--tls-key", theirs[2], "--death-timeout", "4")
    with Cluster(tmp_path / "cluster", "tls", options) as cluster:
        stranger = cluster.worker(*foreign)
        known = cluster.worker()
        with ThreadPoolExecutor() as pool:
            plain = pool.submit(started, bank, tmp_path / "1", "--scheduler", cluster.address.replace("tls", "tcp"))
            other = pool.submit(started, bank, tmp_path / "2", "--scheduler", cluster.address, *command_line(theirs))
            for ended in (plain.result(), other.result()):
                assert ended.returncode == UNUSABLE and "There is no scheduler at" in ended.stderr
        assert not list(tmp_path.rglob("*.sheet"))
        ended = started(bank, tmp_path / "out", "--scheduler", cluster.address, *command_line(ours))
        assert ended.returncode == REFUSED, ended.stderr
        assert left(tmp_path / "out") == left(undisturbed)
        # Dask's own limit does not always end such a worker: then it still asks to come in, and is refused each time.
        with suppress(subprocess.TimeoutExpired):
            assert stranger.wait(60) != 0
        assert known.poll() is None
        assert "TLS handshake failed" in cluster.log(cluster.scheduler)
        assert "Waiting to connect to" in cluster.log(stranger)
        assert "Registered to" in cluster.log(known) and "Registered to" not in cluster.log(stranger)


def test_addresses(tmp_path: Path) -> None:
    assert address("localhost:1", NO_FILES, False).url == "tcp://localhost:1"
    assert address("tcp://10.0.0.1:8786", NO_FILES, True).url == "tcp://10.0.0.1:8786"
    for given in ("127.0.0.1", "tcp://127.0.0.1", "ucx://a:1", "a:0", "a:99999", "http://a:80/", "", ":8786", "a b:1"):
        with pytest.raises(Unusable, match="give host and port"):
            address(given, NO_FILES, False)
    with pytest.raises(Unusable, match="anyone who reaches the scheduler runs programs"):
        address("tcp://10.0.0.1:8786", NO_FILES, False)
    with pytest.raises(Unusable, match="needs --tls-ca, --tls-cert and --tls-key"):
        address("tls://127.0.0.1:8786", NO_FILES, True)
    with pytest.raises(Unusable, match="together"):
        address("tls://127.0.0.1:8786", ("a", None, None), False)
    files = certified(tmp_path, "ours")
    with pytest.raises(Unusable, match="Give it as tls://"):
        address("tcp://127.0.0.1:8786", files, False)
    assert address("tls://10.0.0.1:8786", files, False).certificates == files
    with pytest.raises(Unusable, match="No such file"):
        address("tls://10.0.0.1:8786", ("/nowhere.pem", *files[1:]), False)
    with pytest.raises(Unusable, match="no certificate with its key"):
        address("tls://10.0.0.1:8786", (*files[:2], certified(tmp_path, "theirs")[2]), False)
    with pytest.raises(Unusable, match="no certificate in PEM form"):
        address("tls://10.0.0.1:8786", (os.devnull, *files[1:]), False)


def test_usage_of_a_cluster(bank: Path, tmp_path: Path, run: Run) -> None:
    for arguments, words in {
        ("--scheduler", "127.0.0.1"): "--scheduler 127.0.0.1: give host and port",
        ("--scheduler", "tcp://127.0.0.1:1", "--workers", 2): "Give --workers or --scheduler",
        ("--ship",): "go with --scheduler",
    }.items():
        ended = run("bank", bank, tmp_path / "out", *arguments)
        assert ended.status == UNUSABLE and words in ended.err, ended.err


def test_no_scheduler(bank: Path, tmp_path: Path) -> None:
    soon = "import sys\nfrom walzhik.bank import cluster\nfrom walzhik.cli import main\n"
    soon += "cluster.CONNECTING_SECONDS = 1\nmain(sys.argv[1:])\n"
    ended = python("-c", soon, "bank", bank, tmp_path / "out", "--scheduler", "tcp://127.0.0.1:1")
    assert ended.returncode == UNUSABLE and "There is no scheduler at tcp://127.0.0.1:1" in ended.stderr, ended.stderr
