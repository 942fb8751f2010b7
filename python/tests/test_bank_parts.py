"""The parts of the data bank's run by themselves: what is found and what is complained about, files that are damaged or
change, what a record keeps, a task that kills its workers, and the page."""

from __future__ import annotations

import errno
import gzip
import io
import os
import pickle
import signal
import socket
import subprocess
import sys
from collections import Counter, deque
from html.parser import HTMLParser
from pathlib import Path

import pytest
from bankruns import environment, python, refusals, report
from hypothesis import given
from hypothesis import strategies as st
from running import Run

from walzhik import tucson
from walzhik.bank import local, lock, reading, sketch
from walzhik.bank.inputs import Input, found, shown, stem
from walzhik.bank.options import Options, version
from walzhik.bank.outputs import Halt
from walzhik.bank.page import About, page
from walzhik.bank.progress import Progress
from walzhik.bank.records import Record, Row
from walzhik.bank.report import Summary, kind, rows_of
from walzhik.bank.run import Asked
from walzhik.bank.run import run as run_all
from walzhik.bank.task import Reply, Task, WrongCopy, run
from walzhik.bank.task import run as run_task
from walzhik.failures import Unusable
from walzhik.files import sweep
from walzhik.threads import ONE_THREAD
from walzhik.tucson import Series

TEXT = tucson.write([Series("FEW", 1998, [12, 9, 7])])
EVIL = "<script>alert('x')</script>&\".rwl"


def paths(found: tuple[list[Input], list[str]]) -> list[tuple[str, bool]]:
    return [(each.path, bool(each.complaint)) for each in found[0]]


def recorded(reply: Reply) -> Record:
    return Record.read(reply.line)


def put(path: Path, data: bytes = TEXT) -> Path:
    path.parent.mkdir(parents=True, exist_ok=True)
    path.write_bytes(data)
    return path


# What is found.


def test_folders_are_searched_deep_and_in_order(tmp_path: Path) -> None:
    for name in ("b/x.rwl", "a.rwl", "a/y.RWL", "a/y.txt", "a-z.rwl", "b/c/d/z.rwl.gz"):
        put(tmp_path / name)
    names = [path for path, _ in paths(found([str(tmp_path)], "/nowhere"))]
    assert names == sorted(names) == ["a-z.rwl", "a.rwl", "a/y.RWL", "b/c/d/z.rwl.gz", "b/x.rwl"]


def test_links_are_followed_but_not_in_circles(tmp_path: Path) -> None:
    put(tmp_path / "in/real/x.rwl")
    os.symlink(tmp_path / "in/real", tmp_path / "in/twice")
    os.symlink(tmp_path / "in", tmp_path / "in/real/up")
    os.symlink("x.rwl", tmp_path / "in/real/same.rwl")
    os.symlink("nothing.rwl", tmp_path / "in/real/broken.rwl")
    taken = paths(found([str(tmp_path / "in")], str(tmp_path / "out")))
    for folder in ("real", "twice"):
        expected = {("x.rwl", False), ("same.rwl", False), ("broken.rwl", True), ("up/", True)}
        assert {(f"{folder}/{name}", is_refused) for name, is_refused in expected} <= set(taken)
    assert len(taken) == 8


def test_the_output_folder_is_no_input(tmp_path: Path) -> None:
    put(tmp_path / "x.rwl")
    put(tmp_path / "out/x.indices.rwl")
    assert paths(found([str(tmp_path)], str(tmp_path / "out"))) == [("x.rwl", False)]
    for inside in (".", "deeper"):
        (tmp_path / inside).mkdir(exist_ok=True)
        with pytest.raises(Unusable, match="lies in the output folder"):
            found([str(tmp_path / inside)], str(tmp_path))
    with pytest.raises(Unusable, match="lies in the output folder"):
        found([str(tmp_path / "x.rwl")], str(tmp_path))


def test_lists(tmp_path: Path, monkeypatch: pytest.MonkeyPatch) -> None:
    monkeypatch.chdir(tmp_path)
    put(Path("in/a.rwl"))
    put(Path("in/b c.rwl.gz"))
    listed = put(
        Path("list.txt"), b"in/a.rwl\r\n./in/b c.rwl.gz\n\nin/a.rwl\n" + os.fsencode(tmp_path / "in/a.rwl") + b"\n"
    )
    absolute = str(tmp_path / "in/a.rwl")[1:]
    names = sorted([("in/a.rwl", False), ("in/b c.rwl.gz", False), (absolute, False)])
    assert paths(found([str(listed)], "out")) == names
    monkeypatch.setattr("sys.stdin", io.TextIOWrapper(io.BytesIO(b"in/a.rwl\n")))
    assert paths(found(["-"], "out")) == [("in/a.rwl", False)]
    with pytest.raises(Unusable, match="goes up"):
        found(["../x.rwl"], "out")
    with pytest.raises(Unusable, match="an input is a folder"):
        found(["in/a.crn"], "out")
    with pytest.raises(Unusable, match="would both have the place a.rwl"):
        put(Path("other/a.rwl"))
        found(["in", "other"], "out")


def test_complaints(tmp_path: Path) -> None:
    os.mkfifo(tmp_path / "pipe.rwl")
    put(tmp_path / "x.rwl")
    put(tmp_path / "x.rwl.gz", gzip.compress(TEXT))
    put(tmp_path / "report.csv/y.rwl")
    said = {each.path: each.complaint for each in found([str(tmp_path)], "/nowhere").inputs}
    assert said == {
        "pipe.rwl": "It is no plain file.",
        "x.rwl": "",
        "x.rwl.gz": "Its outputs would have the names of those of x.rwl. Give one of them another name.",
        "report.csv/y.rwl": "Its folder has the name of a file of the report. Give the folder another name.",
    }


@given(st.binary(min_size=1, max_size=20).filter(lambda name: b"/" not in name and b"\0" not in name))
def test_any_name_can_be_shown(name: bytes) -> None:
    text = shown(os.fsdecode(name + b".rwl"))
    assert text.isprintable() and text.encode("utf-8")
    assert stem(os.fsdecode(name + b".rwl")) == os.fsdecode(name)


def test_one_entry_one_complaint(tmp_path: Path) -> None:
    for name in ("a.rwl", "b/c.rwl", ".rwl", "b/.rwl.gz"):
        put(tmp_path / "in" / name)
    os.symlink("loop", tmp_path / "in/loop")
    os.symlink("self.rwl", tmp_path / "in/b/self.rwl")
    os.symlink("a.rwl/x", tmp_path / "in/into")
    said = {each.path: each.complaint for each in found([str(tmp_path / "in")], "/nowhere").inputs}
    assert said == {
        "a.rwl": "",
        "b/c.rwl": "",
        ".rwl": "It has no name before .rwl. Give it one.",
        "b/.rwl.gz": "It has no name before .rwl.gz. Give it one.",
        "loop": "It can't be read: Too many levels of symbolic links.",
        "b/self.rwl": "It can't be read: Too many levels of symbolic links.",
        "into": "It can't be read: Not a directory.",
    }


def test_the_output_of_an_earlier_run_is_no_input(tmp_path: Path) -> None:
    put(tmp_path / "in/a.rwl")
    put(tmp_path / "in/old/a.indices.rwl")
    put(tmp_path / "in/old/manifest.jsonl", Record("a.rwl").line())
    put(tmp_path / "in/other/manifest.jsonl", b"another program's")
    put(tmp_path / "in/other/b.rwl")
    inputs, notes = found([str(tmp_path / "in")], str(tmp_path / "out"))
    assert [each.path for each in inputs] == ["a.rwl", "other/b.rwl"]
    assert notes == ["old/ is the output folder of an earlier run, and is not searched."]


def test_sources_are_from_the_root_and_large_ones_known(tmp_path: Path, monkeypatch: pytest.MonkeyPatch) -> None:
    monkeypatch.chdir(tmp_path)
    put(Path("in/a.rwl"), TEXT * 9)
    put(Path("in/b.rwl.gz"), TEXT * 3)
    for given in (["in"], ["in/a.rwl", "in/b.rwl.gz"]):
        inputs = found(given, "out").inputs
        assert [each.source for each in inputs] == [str(tmp_path / "in/a.rwl"), str(tmp_path / "in/b.rwl.gz")]
        assert inputs[0].size == 9 * len(TEXT) < inputs[1].size


# What is read.


def test_files_that_change_are_not_taken(tmp_path: Path, monkeypatch: pytest.MonkeyPatch) -> None:
    path = put(tmp_path / "x.rwl")
    plain = reading._all_of

    def appended(file: io.BufferedReader) -> bytes:
        data = plain(file)
        path.write_bytes(TEXT + TEXT)
        return data

    def replaced(file: io.BufferedReader) -> bytes:
        data = plain(file)
        os.replace(put(tmp_path / "new"), path)
        return data

    for change in (appended, replaced):
        monkeypatch.setattr(reading, "_all_of", change)
        with pytest.raises(reading.Unsteady, match="It changed while it was read"):
            reading.read(str(path))
    monkeypatch.setattr(reading, "_all_of", plain)
    assert reading.read(str(path)).data == TEXT
    with pytest.raises(reading.Unsteady, match="It can't be read: No such file"):
        reading.read(str(tmp_path / "gone.rwl"))
    os.mkfifo(tmp_path / "pipe.rwl")
    with pytest.raises(reading.Unsteady, match="no plain file"):
        reading.read(str(tmp_path / "pipe.rwl"))


def test_files_that_are_too_large(tmp_path: Path, monkeypatch: pytest.MonkeyPatch) -> None:
    monkeypatch.setattr(reading, "MOST_BYTES", len(TEXT))
    assert reading.read(str(put(tmp_path / "x.rwl"))).data == TEXT
    with pytest.raises(reading.Damaged, match="It has more than"):
        reading.read(str(put(tmp_path / "x.rwl", TEXT + b"\n")))
    bomb = gzip.compress(b"\n" * 10_000_000)
    with pytest.raises(reading.Damaged, match="when it is unpacked"):
        reading.unpacked("x.rwl.gz", bomb)
    assert reading.unpacked("x.rwl.gz", gzip.compress(TEXT)) == TEXT


@given(st.integers(0, len(gzip.compress(TEXT, mtime=0)) - 1), st.integers(1, 255))
def test_damage_of_a_packed_file_is_seen(place: int, flip: int) -> None:
    raw = bytearray(gzip.compress(TEXT, mtime=0))
    raw[place] ^= flip
    try:
        assert reading.unpacked("x.rwl.gz", bytes(raw)) == TEXT  # a byte of the head that says nothing
    except reading.Damaged:
        pass
    with pytest.raises(reading.Damaged):
        reading.unpacked("x.rwl.gz", gzip.compress(TEXT, mtime=0)[:place])


# A file's task.


@pytest.fixture
def task(tmp_path: Path, monkeypatch: pytest.MonkeyPatch) -> Task:
    for name, number in ONE_THREAD.items():
        monkeypatch.setenv(name, number)
    (tmp_path / "out").mkdir()
    source = Input("x.rwl", str(put(tmp_path / "x.rwl")))
    return Task(source, str(tmp_path / "out"), Options(), version(), lock.begin(tmp_path / "out"))


def test_a_task_asks_its_worker(task: Task, monkeypatch: pytest.MonkeyPatch) -> None:
    assert recorded(run(task)).rows[0][:4] == ("FEW", 3, 2, "")
    with pytest.raises(Halt, match="another version"):
        run(task._replace(version="0"))
    with pytest.raises(Halt, match="does not see the output folder"):
        run(task._replace(number="another"))
    with pytest.raises(Halt, match="does not see the output folder"):
        run(task._replace(output="/nowhere"))
    monkeypatch.setenv("OPENBLAS_NUM_THREADS", "2")
    with pytest.raises(Halt, match="several threads"):
        run(task)


def test_a_fault_is_told_and_the_rest_goes_on(task: Task, monkeypatch: pytest.MonkeyPatch) -> None:
    def fault(*_: object, **__: object) -> None:
        raise ZeroDivisionError("of all things")

    monkeypatch.setattr("walzhik.tucson.clean", fault)
    record = recorded(run(task))
    assert not record.digest and record.refusal.startswith("A fault of the program itself, ZeroDivisionError")


def test_names_in_the_way_concern_one_file(task: Task) -> None:
    (Path(task.output) / "x.indices.csv").mkdir()
    record = recorded(run(task))
    assert not record.digest and record.refusal.startswith("Its outputs can't be written: ")


def test_series_of_one_name_are_refused(task: Task) -> None:
    strict = task._replace(options=Options(strict=True))
    other = tucson.write([Series("B", 1998, [12, 9, 7])])
    Path(task.input.source).write_bytes(TEXT + other + TEXT)
    rows = recorded(run(strict)).rows
    assert [(row.name, bool(row.refusal)) for row in rows] == [("B", False), ("FEW", True), ("FEW", True)]
    assert rows[1].refusal == "2 series of the file are named FEW. Give each its own name."


@pytest.mark.parametrize("shape", ["auto", "falling", "hump", "free"])
def test_fits_are_asked_for_as_the_command_fit_takes_them(task: Task, run: Run, shape: str) -> None:
    rising = [700 + 30 * min(ring, 25) - 10 * max(0, ring - 25) for ring in range(80)]
    Path(task.input.source).write_bytes(tucson.write([Series("A", 1901, rising), Series("B", 1960, rising)]))
    options = Options(shape=shape, scars=(1940,))  # type: ignore[arg-type]
    record = recorded(run_task(task._replace(options=options)))
    folder = Path(task.output).parent / "sheets"
    said = run("fit", task.input.source, "--shape", shape, "--scar", "1940", "-o", f"{folder}/")
    assert said.status == 0
    for name in ("A", "B"):
        made = (Path(task.output) / f"x.sheets/{name}.sheet").read_bytes()
        assert made == (folder / f"{name}.sheet").read_bytes()
    parts = {row.name: row.shape.split(", ") for row in record.rows}
    assert len(parts["A"]) == 2 and len(parts["B"]) == 1  # the scar is outside the rings of B
    assert shape == "auto" or {word for words in parts.values() for word in words} <= {shape, "falling"}


def test_names_of_series_make_safe_files(task: Task) -> None:
    Path(task.input.source).write_bytes(tucson.write([Series("../A/b", 1998, [12, 9, 7]), Series("..", 1998, [5, 6])]))
    outputs = recorded(run(task)).outputs
    assert sorted(outputs) == ["x.indices.csv", "x.sheets/..%2FA%2Fb.sheet", "x.sheets/...sheet"]


def test_a_zero_index_has_no_place_in_a_tucson_text(task: Task) -> None:
    Path(task.input.source).write_bytes(tucson.write([Series("Z", 1, [9000, 1, 9000, 9000]), Series("Y", 1, [50, 50])]))
    lists: tuple[list[int], list[int], list[int], list[tuple[int, int]]] = ([0, 9], [1], [], [(9000, 9000)] * 2)
    record = recorded(run(task._replace(options=Options(ending="rwl", sheet=lists))))
    assert [(row.name, row.n, bool(row.refusal)) for row in record.rows] == [("Y", 2, False), ("Z", None, True)]
    assert "Series Z, 2: the index is 0" in record.rows[1].refusal
    assert sorted(record.outputs) == ["x.indices.rwl"]


def test_records_survive_any_text() -> None:
    for path in ("x.rwl", "\udcff\n\u2028.rwl", EVIL):
        record = Record(path, "1f", rows=[Row("A", 3, None, "no\n", seconds=0.5)], changes=["a"], outputs={path: "2e"})
        assert record.line().count(b"\n") == 1 and Record.read(record.line()) == record
    for line in (b"", b"{}", b"[]", b'{"path":"x"', b"\xff\n", b'{"path":"x","more":1}'):
        with pytest.raises(ValueError):
            Record.read(line)


def test_another_file_is_refused_by_machine_and_path(task: Task) -> None:
    digest = reading.read(task.input.source).digest
    assert recorded(run(task._replace(digest=digest))).digest == digest
    put(Path(task.input.source), TEXT.replace(b"12", b"13"))
    with pytest.raises(WrongCopy, match=f"Machine {socket.gethostname()} has another file at {task.input.source} than"):
        run(task._replace(digest=digest))


def test_a_refused_file_has_no_outputs(task: Task) -> None:
    assert recorded(run(task)).outputs
    put(Path(task.output) / "x.indices.rwl", b"of another run")
    assert sorted(path.name for path in Path(task.output).iterdir()) == [
        "run.lock",
        "x.indices.csv",
        "x.indices.rwl",
        "x.sheets",
    ]
    put(Path(task.input.source), b"nothing\n")
    record = recorded(run(task))
    assert record.number == 11 and not record.outputs
    assert [path.name for path in Path(task.output).iterdir()] == ["run.lock"]


def test_words_hold_no_temporary_names(task: Task) -> None:
    (Path(task.output) / "x.sheets").write_bytes(b"in the way")
    words = recorded(run(task)).refusal
    assert words == (
        f"Its outputs can't be written: {task.output}/x.sheets/FEW.sheet: Not a directory. "
        "Give the file or the folder another name."
    )


def test_a_new_folder_of_sheets_gets_its_name_as_a_whole(task: Task, monkeypatch: pytest.MonkeyPatch) -> None:
    named: list[str] = []
    plain = os.replace

    def noted(made: str, name: str) -> None:
        named.append(name)
        plain(made, name)

    monkeypatch.setattr("walzhik.bank.outputs.os.replace", noted)
    outputs = recorded(run(task)).outputs
    assert named == [f"{task.output}/x.sheets", f"{task.output}/x.indices.csv"]
    (Path(task.output) / "x.sheets/FEW.sheet").write_bytes(b"spoiled")
    named.clear()
    assert recorded(run(task)).outputs == outputs
    assert named == [f"{task.output}/x.sheets/FEW.sheet", f"{task.output}/x.indices.csv"]
    assert not list(Path(task.output).rglob(".walzhik-*.part"))


def test_a_folder_that_comes_meanwhile_is_written_into(task: Task, monkeypatch: pytest.MonkeyPatch) -> None:
    """As where a worker that was taken for lost names its outputs first."""
    plain = lock.held

    def late(output: Path, number: str) -> object:
        put(output / "x.sheets/FEW.sheet", b"of the other")
        put(output / "x.sheets/OLD.sheet", b"of an earlier run")
        return plain(output, number)

    assert recorded(run(task)).outputs  # the output folder is seen from here on
    for path in sorted(Path(task.output).glob("x.*/*")) + sorted(Path(task.output).glob("x.*")):
        path.rmdir() if path.is_dir() else path.unlink()
    monkeypatch.setattr("walzhik.bank.lock.held", late)
    record = recorded(run(task))
    assert sorted(record.outputs) == ["x.indices.csv", "x.sheets/FEW.sheet"]
    for path_, made in record.outputs.items():
        assert reading.digest_of((Path(task.output) / path_).read_bytes()) == made
    assert [path.name for path in (Path(task.output) / "x.sheets").iterdir()] == ["FEW.sheet"]
    assert not list(Path(task.output).rglob(".walzhik-*.part"))


def test_a_full_disk_leaves_no_part_of_a_folder(task: Task, monkeypatch: pytest.MonkeyPatch) -> None:
    def full(*_: object) -> int:
        raise OSError(errno.ENOSPC, os.strerror(errno.ENOSPC))

    monkeypatch.setattr("walzhik.files.os.write", full)
    with pytest.raises(Halt, match="x.sheets/FEW.sheet: No space left on device"):
        run(task)
    assert [path.name for path in Path(task.output).iterdir()] == ["run.lock"]


def test_folders_of_killed_writers_are_swept(tmp_path: Path) -> None:
    half, kept = put(tmp_path / "a/.walzhik-1f.part/A.sheet"), put(tmp_path / "a/x.sheets/A.sheet")
    assert sweep(tmp_path) == 1
    assert not half.parent.exists() and kept.exists()


def test_too_many_open_files_are_not_the_files_fault(task: Task, monkeypatch: pytest.MonkeyPatch) -> None:
    assert recorded(run(task)).outputs

    def none(*_: object) -> int:
        raise OSError(errno.EMFILE, os.strerror(errno.EMFILE))

    with monkeypatch.context() as patch:
        patch.setattr("walzhik.bank.reading.os.open", none)
        with pytest.raises(Halt):
            run(task)
    assert (Path(task.output) / "x.indices.csv").exists()


def test_a_worker_that_outlived_its_run_writes_nothing(task: Task, tmp_path: Path) -> None:
    """A worker is stopped when its outputs are written and not yet named; then another run begins, and it goes on."""
    script = "import os, pickle, signal, sys\nfrom walzhik.bank import lock, task\nplain, count = lock.held, []\n"
    script += "def held(*given):\n    count.append(1)\n"
    script += "    if len(count) == 2: os.kill(os.getpid(), signal.SIGSTOP)\n    return plain(*given)\n"
    script += "lock.held = held\ntask.run(pickle.load(open(sys.argv[1], 'rb')))\n"
    put(tmp_path / "task", pickle.dumps(task))
    called = [sys.executable, "-c", script, str(tmp_path / "task")]
    orphan = subprocess.Popen(called, env=environment() | ONE_THREAD, stderr=subprocess.PIPE)
    _, status = os.waitpid(orphan.pid, os.WUNTRACED)
    assert os.WIFSTOPPED(status) and list(Path(task.output).glob(".walzhik-*.part"))
    newer = task._replace(number=lock.begin(Path(task.output)), options=Options(first=1))
    record = recorded(run(newer))
    os.kill(orphan.pid, signal.SIGCONT)
    _, said = orphan.communicate(timeout=60)
    assert orphan.returncode != 0 and b"is over" in said
    for path, made in record.outputs.items():
        assert reading.digest_of((Path(task.output) / path).read_bytes()) == made
    assert not list(Path(task.output).rglob(".walzhik-*.part"))


# Workers.


@pytest.mark.parametrize("is_copied", [True, False])
def test_a_task_that_kills_its_workers_is_given_up(
    task: Task, monkeypatch: pytest.MonkeyPatch, tmp_path: Path, is_copied: bool
) -> None:
    killer = "import os, signal, sys\nfrom walzhik.bank import worker\nplain = worker.run\n"
    killer += "def run(task):\n    if 'bad' in task.input.path: os.kill(os.getpid(), signal.SIGKILL)\n"
    killer += "    return plain(task)\nworker.run = run\nworker.main(int(sys.argv[1]))\n"
    script = put(tmp_path / "killer.py", killer.encode())
    popen = local.subprocess.Popen

    def started_with_killer(arguments: list[str], **given: object) -> object:
        return popen([arguments[0], str(script), arguments[-1]], **given)  # type: ignore[call-overload]

    def run_or_die(given: Task) -> Reply:
        if "bad" in given.input.path:
            os.kill(os.getpid(), signal.SIGKILL)
        return run(given)

    monkeypatch.setattr(local, "is_one_thread", lambda: is_copied)
    monkeypatch.setattr(local.worker, "run", run_or_die)
    monkeypatch.setattr(local.subprocess, "Popen", started_with_killer)
    workers = local.LocalWorkers(2)
    try:
        for path in ("a.rwl", "bad.rwl", "c.rwl"):
            workers.give(task._replace(input=Input(path, task.input.source)))
        lines = []
        while workers.is_busy():
            reply = workers.take(60)
            lines += [] if reply is None else [recorded(reply)]
    finally:
        workers.close()
    said = {record.path: record.refusal for record in lines}
    assert said.keys() == {"a.rwl", "bad.rwl", "c.rwl"} and not said["a.rwl"] and not said["c.rwl"]
    assert said["bad.rwl"].startswith("3 workers were killed while they had it.")
    assert workers.killed >= 3


def test_a_worker_that_cannot_start_ends_the_run(task: Task, monkeypatch: pytest.MonkeyPatch) -> None:
    popen = local.subprocess.Popen

    def started_wrongly(arguments: list[str], **given: object) -> object:
        return popen([arguments[0], "-c", "raise SystemExit(3)"], **given)  # type: ignore[call-overload]

    monkeypatch.setattr(local, "is_one_thread", lambda: False)
    monkeypatch.setattr(local.subprocess, "Popen", started_wrongly)
    workers = local.LocalWorkers(1)
    workers.give(task)
    with pytest.raises(Halt, match="with status 3"):
        workers.take(60)
    workers.close()


class Noting:
    """Workers that do a task when they are asked for its reply, and note in which order tasks were given."""

    killed = 0

    def __init__(self) -> None:
        self.given: list[str] = []
        self.held: deque[Task] = deque()

    def has_room(self) -> bool:
        return len(self.held) < 2

    def is_busy(self) -> bool:
        return bool(self.held)

    def give(self, task: Task) -> None:
        self.given.append(task.input.path)
        self.held.append(task)

    def take(self, seconds: float) -> Reply | None:
        return run(self.held.popleft())

    def close(self) -> None:
        pass


def test_large_files_are_begun_first(tmp_path: Path, monkeypatch: pytest.MonkeyPatch) -> None:
    for name, number in ONE_THREAD.items():
        monkeypatch.setenv(name, number)
    sizes = {"a.rwl": 3, "b.rwl": 40, "c/d.rwl": 9, "e.rwl": 1}
    for name, times in sizes.items():
        texts = [tucson.write([Series(f"S{place}", 1900, list(range(900, 780, -10)))]) for place in range(times)]
        put(tmp_path / "in" / name, b"".join(texts))
    packed = b"".join(tucson.write([Series(f"S{place}", 1900, list(range(900, 780, -10)))]) for place in range(200))
    put(tmp_path / "in" / "f.rwl.gz", gzip.compress(packed, mtime=0))  # its bytes are few, but what comes out is not
    workers = Noting()
    summary = run_all(Asked([str(tmp_path / "in")], tmp_path / "out", Options(), is_quiet=True), lambda *_: workers)
    assert summary.refused == 0 and workers.given == ["f.rwl.gz", "b.rwl", "c/d.rwl", "a.rwl", "e.rwl"]


def test_nothing_waits_behind_a_large_file(task: Task, monkeypatch: pytest.MonkeyPatch) -> None:
    class Unsent:
        def send_bytes(self, task: bytes) -> None:
            pass

    monkeypatch.setattr(local, "started", lambda: local.Worker(None, Unsent(), deque()))  # type: ignore[arg-type]
    workers = local.LocalWorkers(2)
    sizes = [10 * local.AT_HAND_BYTES, *[10] * 9]
    given = 0
    while workers.has_room():
        workers.give(task._replace(input=Input(f"{given}.rwl", task.input.source, "", sizes[given])))
        given += 1
    held = [[each.input.path for each in one.held] for one in workers._workers]
    assert held == [["0.rwl"], [f"{place}.rwl" for place in range(1, 1 + local.AT_HAND)]]


# The report.


def test_one_line_a_minute() -> None:
    moments = iter(range(0, 1_000, 20))
    stream = io.StringIO()
    progress = Progress(12, stream=stream, clock=lambda: next(moments))
    for _ in range(9):
        progress.advance()
    assert stream.getvalue().splitlines() == [
        "3 of 12 files are done, 3.0 a minute; about 3 minutes left.",
        "6 of 12 files are done, 3.0 a minute; about 2 minutes left.",
        "9 of 12 files are done, 3.0 a minute; about 1 minute left.",
    ]
    quiet = Progress(2, is_quiet=True, stream=stream, clock=lambda: 0)
    quiet.advance()
    quiet.say("nothing")
    assert len(stream.getvalue().splitlines()) == 3


class Tags(HTMLParser):
    """The tags of a page, and whether they are closed in order."""

    def __init__(self) -> None:
        super().__init__()
        self.open: list[str] = []
        self.seen: Counter[str] = Counter()

    def handle_starttag(self, tag: str, attrs: list[tuple[str, str | None]]) -> None:
        self.seen[tag] += 1
        if tag != "meta":
            self.open.append(tag)

    def handle_startendtag(self, tag: str, attrs: list[tuple[str, str | None]]) -> None:
        self.seen[tag] += 1

    def handle_endtag(self, tag: str) -> None:
        assert self.open.pop() == tag


def test_the_page_is_safe_and_tells(tmp_path: Path, run: Run) -> None:
    put(tmp_path / "in" / EVIL.replace("/", "\\"), tucson.write([Series("<b>&x", 1900, list(range(500, 560)))]))
    put(tmp_path / "in" / os.fsdecode(b"\xff\n.rwl"), b"<i>nothing\n")
    ended = run("bank", tmp_path / "in", tmp_path / "out")
    assert ended.status == 1, ended.err
    text = (tmp_path / "out/report.html").read_text("utf-8")
    tags = Tags()
    tags.feed(text)
    assert not tags.open and not {"script", "b", "i", "img"} & tags.seen.keys()
    assert tags.seen["figure"] == 1 and tags.seen["polyline"] == 2 and tags.seen["svg"] == 2
    assert "&lt;b&gt;&amp;x" in text and "\\xff\\x0a.rwl" in text
    assert "http" not in text
    assert ["\\xff\\x0a.rwl", ""] in [[row["file"], row["series"]] for row in report(tmp_path / "out")]


def test_the_pages_numbers() -> None:
    summary = Summary()
    for number in range(300):
        rows = [Row(f"A{number}", 40 + number, 4, ""), Row("B", 1, None, "Series B: no fit. It has 1 ring: so.")]
        summary.add(Record(f"{number:03}.rwl", "1f", rows=rows, seconds=float(number)))
    summary.add(Record("x.rwl", refusal="It can't be read: Permission denied."))
    assert (summary.files, summary.series, summary.refused_series, summary.unread_files) == (301, 600, 300, 1)
    assert summary.reasons == {"Series ..: no fit. It has .. ring: so.": 300, "It can't be read: Permission denied.": 1}
    assert [slow.seconds for slow in summary.slowest] == [float(number) for number in range(299, 289, -1)]
    assert len(summary.pictures) == len(set(summary.pictures)) == 12
    text = page(summary, About.now("t", ["/in"], Options(first=3)), [])
    assert "/in" in text and "first 3" in text
    assert "report.csv has 101 more" in text and "600" not in text.split("</dl>")[0].replace("66rem", "")
    assert sum(count for _, _, count in sketch.bins(summary.lengths)) == 600
    assert len(sketch.bins(summary.lengths)) <= sketch.MOST_BARS


def test_kinds_of_refusals_leave_out_names_and_numbers() -> None:
    one = "refused, no=13,2. Line 2 ends series 'FEW     ' with 9: its last field must be 999 or -9999."
    other = "refused, no=13,7. Line 7 ends series 'B' with 12: its last field must be 999 or -9999."
    assert kind(one) == kind(other) and "FEW" not in kind(one)


def test_the_report_takes_any_text() -> None:
    record = Record('a,"b".rwl', refusal="one, two", changes=["x", "y"], seconds=1.0)
    assert rows_of(record) == '"a,""b"".rwl",,,,0,,,,,,"one, two",x y,1.0000\n'


def test_nothing_to_do(tmp_path: Path, run: Run) -> None:
    ended = run("bank", tmp_path, tmp_path.parent / f"{tmp_path.name}-out")
    assert ended.status == 2 and ended.err == "There is no file that ends in .rwl, .fh, .rwl.gz or .fh.gz.\n"
    os.mkfifo(tmp_path / "pipe.rwl")
    ended = run("bank", tmp_path, tmp_path.parent / f"{tmp_path.name}-out")
    assert ended.status == 2
    assert refusals(tmp_path.parent / f"{tmp_path.name}-out") == {("pipe.rwl", ""): "It is no plain file."}


def test_usage(tmp_path: Path, run: Run) -> None:
    for arguments, words in {
        ("--curve", "examples/sheets/roof.sheet", "--fit"): "Give --curve, or fit",
        ("--earlywood", "*E"): "go with --curve",
        ("--curve", "examples/refusals/refused_5.sheet"): "refused, no=5,0",
        ("--breaks", "0,10"): "Give --breaks, --degrees and --orders together",
        ("--workers", "0"): "Invalid value for '--workers'",
        ("--hundredths", "--thousandths"): "not both",
        ("--first", "1", "--each-first", "1"): "not both",
        ("--curve", "examples/sheets/growth.sheet", "--shape", "hump"): "--shape and --scar go without it",
        ("--breaks", "0,10", "--degrees", "1", "--scar", "5"): "--scar goes without --breaks",
    }.items():
        ended = run("bank", "examples/tucson", tmp_path / "out", *arguments)
        assert ended.status == (1 if "refused" in words else 2) and words in ended.err, ended.err
    assert not (tmp_path / "out").exists()


def test_the_workers_of_this_machine_have_one_thread() -> None:
    script = "import os\nfrom walzhik.bank import local\nfrom pathlib import Path\nworker = local.started()\n"
    # right after the start the system may not show the worker's environment yet
    script += "shown = Path(f'/proc/{worker.process.pid}/environ')\n"
    script += "while not shown.read_bytes() and worker.process.poll() is None:\n    pass\n"
    script += "print(shown.read_bytes().decode())\nworker.connection.close()"
    said = python("-c", script).stdout
    assert all(f"{name}=1" in said for name in ("OMP_NUM_THREADS", "OPENBLAS_NUM_THREADS", "MKL_NUM_THREADS"))
