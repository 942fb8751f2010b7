"""Measures `./walzhik bank` against a plain script over the same made-up files, and its own workers against Python's and
Dask's pools, in turns, in one run.

    PYTHONPATH=python/src /usr/bin/python3 docs/src/benchmark_bank.py [--files 400] [--rounds 3] [--workers 1 2] [--kinds bank plain ..]

Kinds: `bank` is the command; `plain` a script with multiprocessing.Pool that writes the same indices, sheets and report.csv, without hashes, a page or
care for kills; `futures` and `dask` are the command's run with concurrent.futures or Dask's LocalCluster in place of its own workers. For
each it prints the time on the clock, files a second, the processor time of all its processes, the most memory of the first process and of its largest
child, all of the median round by the clock; then, round by round, the plain script's time over the bank's, by the clock and by the processor: 1 is as
fast, more is faster. Within a round the kinds run one right after the other, the first one being another in each round, so that a busy machine is busy for both.
The outputs of all runs are compared byte for byte.
"""

from __future__ import annotations

import argparse
import hashlib
import os
import subprocess
import sys
import tempfile
import time
from pathlib import Path
from statistics import median, median_low
from typing import Any

ROOT = Path(__file__).resolve().parents[2]
SERIES, RINGS = 10, 200
PER_MB = 1024  # of what the system counts in KiB
KINDS = ("bank", "plain", "futures", "dask")
USED = """
import resource
used = [resource.getrusage(who) for who in (resource.RUSAGE_SELF, resource.RUSAGE_CHILDREN)]
print(sum(each.ru_utime + each.ru_stime for each in used), *(each.ru_maxrss for each in used))
"""


def main() -> None:
    parser = argparse.ArgumentParser(description="Measure ./walzhik bank.")
    parser.add_argument("--files", type=int, nargs="+", default=[400])
    parser.add_argument("--rounds", type=int, default=3)
    parser.add_argument("--workers", type=int, nargs="+", default=sorted({1, len(os.sched_getaffinity(0))}))
    parser.add_argument("--kinds", nargs="+", choices=KINDS, default=["bank", "plain"])
    parser.add_argument("--folder", help="Where to work; a temporary folder without it.")
    asked = parser.parse_args()
    sys.path.insert(0, str(ROOT / "tests"))
    import make_bank

    print("files kind workers clock files_a_second cpu first_MB child_MB", flush=True)
    with tempfile.TemporaryDirectory(dir=asked.folder) as folder:
        for files in asked.files:
            source = Path(folder) / f"in{files}"
            make_bank.make(source, files, SERIES, RINGS, seed=1)
            print_all(source, Path(folder), files, asked)


def print_all(source: Path, folder: Path, files: int, asked: argparse.Namespace) -> None:
    """All kinds in turns, then a line for each."""
    found: dict[tuple[str, int], list[tuple[float, ...]]] = {}
    left = set()
    for round_ in range(asked.rounds):
        for workers in asked.workers:
            turn = round_ % len(asked.kinds)
            for kind in [*asked.kinds[turn:], *asked.kinds[:turn]]:
                output = folder / f"out{files}.{kind}.{workers}.{round_}"
                found.setdefault((kind, workers), []).append(measured(kind, source, output, workers))
                left.add(digest(output))
    for (kind, workers), rounds in found.items():
        clock, cpu, first, child = median_low(rounds)
        told = f"{clock:.2f} {files / clock:.0f} {cpu:.2f} {first / PER_MB:.1f} {child / PER_MB:.1f}"
        print(f"{files} {kind} {workers} {told}", flush=True)
    for workers in asked.workers:
        if {"bank", "plain"} <= set(asked.kinds):
            print_ratios(files, workers, found["plain", workers], found["bank", workers])
    print(f"{files} files: the outputs are {'equal' if len(left) == 1 else 'NOT EQUAL'}", flush=True)


def print_ratios(files: int, workers: int, plain: list[tuple[float, ...]], bank: list[tuple[float, ...]]) -> None:
    """The plain script's times over the bank's: the middle round, and the least and the greatest."""
    for at, name in enumerate(("clock", "cpu")):
        ratios = sorted(one[at] / other[at] for one, other in zip(plain, bank))
        told = f"{median(ratios):.2f} (from {ratios[0]:.2f} to {ratios[-1]:.2f})"
        print(f"{files} files, {workers} workers: plain over bank by {name} {told}", flush=True)


def measured(kind: str, source: Path, output: Path, workers: int) -> tuple[float, ...]:
    """Seconds on the clock, processor seconds, and KiB of the first process and of its largest child."""
    text = f"import sys\nsys.path.insert(0, {str(Path(__file__).parent)!r})\nimport benchmark_bank\n"
    text += f"benchmark_bank.{kind}(*sys.argv[1:])\n{USED}"
    called = [sys.executable, "-c", text, str(source), str(output), str(workers)]
    one = {name: "1" for name in ("OMP_NUM_THREADS", "OPENBLAS_NUM_THREADS", "MKL_NUM_THREADS")}
    begun = time.perf_counter()
    ended = subprocess.run(called, stdout=subprocess.PIPE, text=True, check=True, env=os.environ | one)
    return (time.perf_counter() - begun, *map(float, ended.stdout.split()))


def digest(output: Path) -> str:
    """A hash of all indices and sheets, and of report.csv without its seconds."""
    made = hashlib.sha256()
    for path in sorted(output.rglob("*")):
        if path.is_file() and (path.parent != output or path.name == "report.csv"):
            data = path.read_bytes()
            if path.parent == output:
                data = b"\n".join(line.rpartition(b",")[0] for line in data.split(b"\n"))
            made.update(str(path.relative_to(output)).encode() + hashlib.sha256(data).digest())
    return made.hexdigest()


# The kinds, each in a process of its own.


def bank(source: str, output: str, workers: str) -> None:
    """The command."""
    from walzhik.cli import main as command

    try:
        command(["bank", source, output, "--workers", workers, "--quiet"])
    except SystemExit as ended:
        assert not ended.code


def plain(source: str, output: str, workers: str) -> None:
    """What one would write without the command."""
    from multiprocessing import Pool

    paths = sorted(Path(source).rglob("*.rwl*"))
    with Pool(int(workers)) as pool:
        todo = [(path, path.relative_to(source), Path(output)) for path in paths]
        lines = [line for found in pool.imap_unordered(plain_file, todo) for line in found]
    names = "file,series,first,last,rings,n,shape,deviation_mm,explained,number,refusal,changes,seconds"
    (Path(output) / "report.csv").write_text("\n".join([names, *sorted(lines), ""]))


def plain_file(given: tuple[Path, Path, Path]) -> list[str]:
    """One file: read, fitted, divided, written; its lines of the report."""
    import gzip

    from walzhik import notes, tucson
    from walzhik.csvtext import quoted_field
    from walzhik.dividing import HEADER, ring_lines
    from walzhik.fit import closeness, fit, template
    from walzhik.sheet import Sheet

    path, place, output = given
    begun = time.perf_counter()
    data = gzip.decompress(path.read_bytes()) if path.suffix == ".gz" else path.read_bytes()
    stem = str(output / place).partition(".rwl")[0]
    os.makedirs(f"{stem}.sheets", exist_ok=True)
    rows, lines = [HEADER], []
    cleaned = tucson.clean(data)
    read = tucson.read_strict(cleaned.text)
    for series in read:
        since = time.perf_counter()
        made = fit(template(len(series), series.first), series.widths, series.first)
        curve = made.curve
        rows.append(ring_lines(series, made.divided))
        lists, sides = curve.space.lists(), curve.coefficients.tolist()
        sheet = Sheet(lists.breaks, lists.degrees, lists.orders, [(early, late) for early, late in sides])
        Path(f"{stem}.sheets/{series.name}.sheet").write_bytes(sheet.text())
        close = closeness(series.widths, made.values())
        figures = f"{number(close.mean_square**0.5)},{number(close.share_explained or 0)}"
        told = f"{series.first},{series.last},{len(series)},{curve.space.n},{', '.join(made.shapes)},{figures}"
        lines.append(f"{place},{series.name},{told},,,,{time.perf_counter() - since:.4f}")
    Path(f"{stem}.indices.csv").write_bytes(b"".join(rows))
    span = f"{min(each.first for each in read)},{max(each.last for each in read)},{sum(map(len, read))}"
    changes = quoted_field(" ".join(notes.sentences(cleaned.notes)))
    return [f"{place},,{span},,,,,,,{changes},{time.perf_counter() - begun:.4f}", *lines]


def number(value: float) -> str:
    """A number as report.csv has it."""
    return f"{round(value, 6):.6f}".rstrip("0").rstrip(".")


def futures(source: str, output: str, workers: str) -> None:
    """The command's run with concurrent.futures."""
    from concurrent.futures import FIRST_COMPLETED, ProcessPoolExecutor, wait

    from walzhik.bank.task import run as work

    class Futures:
        """Workers of Python's own pool. It gives up all tasks when one of its processes is killed."""

        killed = 0

        def __init__(self, count: int) -> None:
            self.pool, self.count, self.pending = ProcessPoolExecutor(count), count, set[Any]()

        def has_room(self) -> bool:
            return len(self.pending) < 2 * self.count

        def is_busy(self) -> bool:
            return bool(self.pending)

        def give(self, task: Any) -> None:
            self.pending.add(self.pool.submit(work, task))

        def take(self, seconds: float) -> Any:
            done, _ = wait(self.pending, seconds, FIRST_COMPLETED)
            if not done:
                return None
            first = done.pop()
            self.pending.discard(first)
            return first.result()

        def close(self) -> None:
            self.pool.shutdown()

    done_by(lambda *_: Futures(int(workers)), source, output, "nothing")


def dask(source: str, output: str, workers: str) -> None:
    """The command's run on a cluster that is started for it."""
    from distributed import LocalCluster

    from walzhik.bank.address import Address
    from walzhik.bank.cluster import ClusterWorkers

    with LocalCluster(n_workers=int(workers), threads_per_worker=1, dashboard_address=None) as cluster:
        where = Address(cluster.scheduler_address)
        done_by(lambda probe, say: ClusterWorkers(where, probe, say), source, output, "digests")


def done_by(made: Any, source: str, output: str, sends: Any) -> None:
    from walzhik.bank.options import Options
    from walzhik.bank.run import Asked, run

    run(Asked([source], Path(output), Options(), sends, is_quiet=True), made)


if __name__ == "__main__":
    main()
