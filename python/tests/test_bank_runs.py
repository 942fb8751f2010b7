"""Runs over a data bank of 60 files: whatever workers do it, whatever disturbs it, the outputs are those of an
undisturbed run byte for byte, or words say what is missing.
"""

from __future__ import annotations

import os
import pty
import random
import re
import resource
import shutil
import signal
import subprocess
from pathlib import Path

import pytest
from bankruns import DAMAGED, FILES, REFUSED, RINGS, SERIES, SHORT, WINDOWS
from bankruns import bank, disturbed, left, refusals, report, started, undisturbed  # noqa: F401
from running import Run

from walzhik.bank.manifest import Manifest
from walzhik.bank.records import Record

DONE, REFUSED_STATUS, UNUSABLE, BROKEN_OFF = 0, 1, 2, 3
MIDDLE = 20
SMALL = 4_096  # bytes: less than an output has


def test_every_file_has_its_outputs_and_lines(bank: Path, undisturbed: Path) -> None:
    found = left(undisturbed)
    names = {"report.csv", "manifest.jsonl", "run.lock"}
    for path in sorted(bank.rglob("*.rwl*")):
        place = str(path.relative_to(bank)).partition(".")[0]
        if str(path.relative_to(bank)) not in (DAMAGED, REFUSED):
            number = place[-4:]
            names |= {f"{place}.indices.csv", *(f"{place}.sheets/W{number}{each:03}.sheet" for each in range(SERIES))}
    assert found.keys() == names
    rows = report(undisturbed)
    assert [(row["file"], row["series"]) for row in rows] == sorted((row["file"], row["series"]) for row in rows)
    assert sum(not row["series"] for row in rows) == FILES
    assert {row["rings"] for row in rows if row["series"] and row["series"] != "ONE"} == {str(RINGS)}
    assert all(row["n"] == "5" for row in rows if row["series"] and not row["refusal"])
    assert all(float(row["seconds"]) >= 0 for row in rows)


def test_what_is_refused_is_said(undisturbed: Path) -> None:
    said = refusals(undisturbed)
    assert said.keys() == {(DAMAGED, ""), (REFUSED, ""), (SHORT, "ONE")}
    assert said[DAMAGED, ""] == "It ends too early to be unpacked. Get the file again."
    assert said[REFUSED, ""].startswith("refused, no=1")
    assert said[SHORT, "ONE"].startswith("Series ONE: no template. It has 1 ring: ")
    noted = {row["file"]: row["changes"] for row in report(undisturbed) if row["changes"]}
    assert [name for name, words in noted.items() if "the line end of Windows became a plain one." in words] == [
        WINDOWS
    ]


def test_outputs_are_those_of_the_commands_for_one_file(bank: Path, undisturbed: Path, run: Run) -> None:
    ended = run("indices", bank / WINDOWS, "--fit")
    place = WINDOWS.partition(".")[0]
    assert (undisturbed / f"{place}.indices.csv").read_text() == ended.out
    sheet = run("fit", bank / WINDOWS, "--series", "W0008001").out
    assert (undisturbed / f"{place}.sheets" / "W0008001.sheet").read_text() == sheet


def test_two_workers_leave_the_same(bank: Path, undisturbed: Path, tmp_path: Path) -> None:
    ended = started(bank, tmp_path, "--workers", 2, "--quiet")
    assert (ended.returncode, ended.stdout) == (REFUSED_STATUS, "")
    told = [f"{file}: {words}" for (file, _), words in refusals(undisturbed).items()]
    assert ended.stderr.splitlines() == told and len(told) == 3  # quietly, but what was refused is told
    assert left(tmp_path) == left(undisturbed)


def test_a_killed_workers_files_are_done_by_others(bank: Path, undisturbed: Path, tmp_path: Path) -> None:
    ended = disturbed(MIDDLE, "worker", bank, tmp_path, "--workers", 2)
    assert ended.returncode == REFUSED_STATUS, ended.stderr
    assert "1 worker was lost; what it had was done again." in ended.stderr
    assert left(tmp_path) == left(undisturbed)


@pytest.mark.parametrize("number", ["SIGINT", "SIGTERM"])
def test_an_interrupted_run_goes_on(bank: Path, undisturbed: Path, tmp_path: Path, number: str) -> None:
    ended = disturbed(MIDDLE, number, bank, tmp_path, "--workers", 2)
    assert ended.returncode == BROKEN_OFF
    words, _, rest = ended.stderr.strip().splitlines()[-1].partition(" of ")
    done = int(words.removeprefix("Interrupted. "))
    assert MIDDLE <= done < FILES and rest == f"{FILES} files are done; the same command goes on from there."
    assert not (tmp_path / "report.csv").exists() and not list(tmp_path.rglob("*.part"))
    before = {path: path.stat().st_ino for path in tmp_path.rglob("*.indices.csv")}
    assert len(before) >= done - 2
    ended = started(bank, tmp_path)
    assert ended.returncode == REFUSED_STATUS and f" {done} were done before." in ended.stderr
    assert left(tmp_path) == left(undisturbed)
    assert {path: path.stat().st_ino for path in before} == before  # not written again
    assert all(row["seconds"] for row in report(tmp_path))


def test_a_killed_run_goes_on(bank: Path, undisturbed: Path, tmp_path: Path) -> None:
    assert disturbed(MIDDLE, "SIGKILL", bank, tmp_path, "--workers", 2).returncode == -signal.SIGKILL
    with (tmp_path / "journal.jsonl").open("ab") as journal:
        journal.write(b'{"path":"site000/w00')  # half a line, as a full disk or a power cut leaves it
    (tmp_path / "site000" / ".walzhik-x1.part").write_bytes(b"half")
    (tmp_path / "site000" / ".walzhik-x2.part").mkdir()
    (tmp_path / "site000" / ".walzhik-x2.part" / "A.sheet").write_bytes(b"half")
    before = {path: path.stat().st_ino for path in tmp_path.rglob("*.indices.csv")}
    assert started(bank, tmp_path).returncode == REFUSED_STATUS
    assert left(tmp_path) == left(undisturbed)
    written_again = [path for path in before if path.stat().st_ino != before[path]]
    assert len(written_again) <= 8  # those at hand of two workers, whose lines had not come yet


def test_kills_at_random_moments(bank: Path, undisturbed: Path, tmp_path: Path) -> None:
    draw = random.Random(50)
    for what in ("SIGKILL", "worker,worker", "SIGKILL", "SIGTERM"):
        ended = disturbed(draw.randrange(1, MIDDLE), what, bank, tmp_path, "--workers", 2)
        assert ended.returncode in (-signal.SIGKILL, REFUSED_STATUS, BROKEN_OFF), ended.stderr
        if what == "worker,worker":
            for path in sorted(tmp_path.rglob("*.indices.csv"))[::2]:
                path.unlink()  # so that there is something to do again
    assert started(bank, tmp_path).returncode == REFUSED_STATUS
    assert left(tmp_path) == left(undisturbed)


def test_the_journal_is_compacted(bank: Path, tmp_path: Path) -> None:
    for at in (10, 20, 30):
        assert disturbed(at, "SIGKILL", bank, tmp_path, "--workers", 1).returncode == -signal.SIGKILL
        (tmp_path / "site000/w0000.indices.csv").unlink(missing_ok=True)  # so that its record comes again
        with (tmp_path / "journal.jsonl").open("ab") as journal:
            journal.write(b'{"path":"half a li')
    Manifest(tmp_path).close()
    first, *lines = (tmp_path / "journal.jsonl").read_bytes().splitlines()
    names = [Record.read(line).path for line in lines]
    assert first.startswith(b"walzhik bank ") and len(names) == len(set(names)) >= 28


def test_what_is_done_is_not_done_again(bank: Path, undisturbed: Path, tmp_path: Path, run: Run) -> None:
    output = tmp_path / "out"
    shutil.copytree(undisturbed, output)
    states = {path: path.stat() for path in output.rglob("site*/*.indices.csv")}
    spoiled, gone = output / "site000/w0000.indices.csv", output / "site000/w0001.sheets/W0001000.sheet"
    spoiled.write_bytes(spoiled.read_bytes()[:-1])
    gone.unlink()
    assert run("bank", bank, output).status == REFUSED_STATUS
    assert left(output) == left(undisturbed)
    again = {path.name for path, state in states.items() if path.stat().st_ino != state.st_ino}
    assert again == {"w0000.indices.csv", "w0001.indices.csv"}
    timed = {row["file"] for row in report(output) if row["seconds"]}
    assert timed == {"site000/w0000.rwl", "site000/w0001.rwl"}


def test_other_options_and_other_inputs_are_done_again(bank: Path, tmp_path: Path, run: Run) -> None:
    source, output = tmp_path / "in", tmp_path / "out"
    source.mkdir()
    for name in (WINDOWS, SHORT):
        shutil.copy(bank / name, source)
    assert run("bank", source, output).status == REFUSED_STATUS
    assert run("bank", source, output, "--format", "rwl", "--series", "W*").status == 0
    assert list(output.rglob("*.csv")) == [output / "report.csv"]
    assert sorted(path.name for path in output.glob("*.indices.*")) == ["w0008.indices.rwl", "w0050.indices.rwl"]
    ended = run("indices", source / "w0008.rwl", "--fit", "-o", tmp_path / "one.rwl")
    assert ended.status == 0
    assert (output / "w0008.indices.rwl").read_bytes() == (tmp_path / "one.rwl").read_bytes()
    (source / "w0008.rwl").write_bytes(b"nothing\n")
    assert run("bank", source, output, "--format", "rwl", "--series", "W*").status == REFUSED_STATUS
    assert sorted(path.name for path in output.glob("w*")) == ["w0050.indices.rwl", "w0050.sheets"]
    (source / "w0050.rwl").unlink()
    ended = run("bank", source, output)
    assert "Inputs that are there no more: 1. Their outputs stand; --prune removes them." in ended.err
    assert sorted(path.name for path in output.glob("w*")) == ["w0050.indices.rwl", "w0050.sheets"]


def test_outputs_are_what_the_records_say(bank: Path, tmp_path: Path, run: Run) -> None:
    source, output = tmp_path / "in", tmp_path / "out"
    source.mkdir()
    for name in (WINDOWS, SHORT):
        shutil.copy(bank / name, source)
    assert run("bank", source, output, "--series", "W*").status == DONE
    everything = left(output)
    text = (source / "w0008.rwl").read_bytes()
    (source / "w0008.rwl").unlink()
    assert run("bank", source, output, "--series", "W*").status == DONE  # gone: its outputs and its record stay
    assert sorted(path.name for path in output.glob("w0008*")) == ["w0008.indices.csv", "w0008.sheets"]
    (source / "w0008.rwl").write_bytes(b"nothing\n")
    ended = run("bank", source, output, "--series", "W*", "--quiet")
    assert ended.status == REFUSED_STATUS
    assert "Outputs of earlier runs were taken away of 1 refused file." in ended.err
    assert not list(output.glob("w0008*"))  # back, but damaged
    (source / "w0008.rwl").write_bytes(text)
    assert run("bank", source, output, "--series", "W*").status == DONE
    assert left(output) == everything


def test_prune(bank: Path, tmp_path: Path, run: Run) -> None:
    source, output = tmp_path / "in", tmp_path / "out"
    (source / "deep").mkdir(parents=True)
    shutil.copy(bank / WINDOWS, source / "deep")
    shutil.copy(bank / SHORT, source)
    assert run("bank", source, output, "--series", "W*").status == DONE
    shutil.rmtree(source / "deep")
    (output / "notes.txt").write_text("mine")
    (output / "stray.indices.csv").write_text("of no input")
    would = run("bank", source, output, "--series", "W*", "--prune", "--dry-run").out.splitlines()
    assert would[:2] == ["done    w0050.rwl", "prune   deep/w0008.indices.csv"] and "prune   stray.indices.csv" in would
    ended = run("bank", source, output, "--series", "W*", "--prune")
    assert ended.status == DONE and "5 outputs of no input were taken away." in ended.err
    files = sorted(str(path.relative_to(output)) for path in output.rglob("*") if path.is_file())
    sheets = [f"w0050.sheets/W0050{number:03}.sheet" for number in range(SERIES)]
    reports = ["manifest.jsonl", "notes.txt", "report.csv", "report.html", "run.lock"]
    assert files == [*reports, "w0050.indices.csv", *sheets]


def test_a_dry_run_writes_nothing(bank: Path, undisturbed: Path, tmp_path: Path, run: Run) -> None:
    ended = run("bank", bank, tmp_path / "out", "--dry-run")
    assert ended.status == DONE and not (tmp_path / "out").exists()
    assert ended.out.splitlines() == [f"do      {row['file']}" for row in report(undisturbed) if not row["series"]]
    before = left(undisturbed)
    ended = run("bank", bank, undisturbed, "--dry-run")
    assert {line.split()[0] for line in ended.out.splitlines()} == {"done"}
    assert left(undisturbed) == before


def test_what_the_report_tells(undisturbed: Path, run: Run) -> None:
    rows = {(row["file"], row["series"]): row for row in report(undisturbed)}
    assert rows[REFUSED, ""]["number"] == "13" and rows[DAMAGED, ""]["number"] == ""
    row = rows[WINDOWS, "W0008001"]
    table = (undisturbed / "site000/w0008.indices.csv").read_text().splitlines()
    years = [line.split(",")[1] for line in table if line.startswith("W0008001,")]
    assert (row["first"], row["last"], row["rings"]) == (years[0], years[-1], str(len(years)))
    assert row["shape"] in ("falling", "hump", "free")
    assert 0 < float(row["deviation_mm"]) < 1 and 0 < float(row["explained"]) < 1
    said = run("explain", undisturbed / "site000/w0008.sheets/W0008001.sheet")
    assert said.status == DONE
    page = (undisturbed / "report.html").read_text()
    assert str(undisturbed.parent / "in") in page and "2.0.0 (" in page and page.count("<polyline") == 24


def test_one_curve_for_all_with_patterns(tmp_path: Path, run: Run) -> None:
    arguments = ("examples/tucson/oak.rwl", tmp_path, "--curve", "examples/sheets/roof.sheet")
    ended = run("bank", *arguments, "--earlywood", "*E", "--latewood", "*L")
    assert ended.status == 0, ended.err
    names = ("--earlywood", "ROOF04E", "--latewood", "ROOF04L")
    one = run("indices", "examples/tucson/oak.rwl", "--curve", "examples/sheets/roof.sheet", *names)
    assert (tmp_path / "examples/tucson/oak.indices.csv").read_text() == one.out
    assert not list(tmp_path.rglob("*.sheet"))
    ended = run("bank", *arguments)
    assert ended.status == UNUSABLE and "has a curve for each wood part" in ended.err


def without_rights() -> tuple[str, ...]:
    """A command before which a folder's rights count even for root."""
    return ("setpriv", "--bounding-set=-dac_override,-dac_read_search") if os.geteuid() == 0 else ()


def test_an_unwritable_output_folder(bank: Path, tmp_path: Path) -> None:
    output = tmp_path / "out"
    output.mkdir(mode=0o555)
    ended = started(bank, output, before=without_rights())
    assert ended.returncode == UNUSABLE
    assert ended.stderr == f"The output folder can't be used. {output}/journal.jsonl: Permission denied.\n"
    (tmp_path / "file").write_text("")
    ended = started(bank, tmp_path / "file" / "out")
    assert ended.returncode == UNUSABLE and "can't be used" in ended.stderr


def test_a_folder_of_the_output_that_is_unwritable(bank: Path, undisturbed: Path, tmp_path: Path) -> None:
    (tmp_path / "site001").mkdir(mode=0o555)
    ended = started(bank, tmp_path, "--workers", 1, before=without_rights())
    assert ended.returncode == BROKEN_OFF
    said = "The outputs of site001/w0054.rwl.gz can't be written. "
    assert said in ended.stderr and "Permission denied. 2 of 60 files are done; the same command" in ended.stderr
    (tmp_path / "site001").chmod(0o755)
    assert started(bank, tmp_path).returncode == REFUSED_STATUS
    assert left(tmp_path) == left(undisturbed)


def test_a_full_disk(bank: Path, undisturbed: Path, tmp_path: Path) -> None:
    def limit() -> None:
        resource.setrlimit(resource.RLIMIT_FSIZE, (SMALL, SMALL))

    ended = started(bank, tmp_path, preexec_fn=limit)
    assert ended.returncode == BROKEN_OFF
    assert "can't be written. " in ended.stderr and "File too large. " in ended.stderr
    for path in tmp_path.rglob("site*/*"):
        if path.is_file():
            assert path.read_bytes() == (undisturbed / path.relative_to(tmp_path)).read_bytes()
    assert started(bank, tmp_path).returncode == REFUSED_STATUS
    assert left(tmp_path) == left(undisturbed)


def test_no_room_for_the_journal(bank: Path, undisturbed: Path, tmp_path: Path) -> None:
    def limit() -> None:
        resource.setrlimit(resource.RLIMIT_FSIZE, (5 * SMALL, 5 * SMALL))

    ended = started(bank, tmp_path, "--workers", 1, preexec_fn=limit)
    assert ended.returncode == BROKEN_OFF
    words = rf"{tmp_path}/journal.jsonl: File too large. (\d+) of {FILES} files are done; the same command .*\n"
    told = re.fullmatch(words, ended.stderr)
    assert told and 5 < int(told[1]) < FILES
    assert started(bank, tmp_path).returncode == REFUSED_STATUS
    assert left(tmp_path) == left(undisturbed)


def test_too_many_open_files(bank: Path, tmp_path: Path) -> None:
    def limit() -> None:
        resource.setrlimit(resource.RLIMIT_NOFILE, (40, 40))

    ended = started(bank, tmp_path, "--workers", 60, preexec_fn=limit)
    assert ended.returncode == UNUSABLE
    assert re.fullmatch(
        r"Worker \d+ of 60 can't be started: Too many open files. Give fewer, with --workers.\n", ended.stderr
    )


def test_nobody_reads_what_is_said(bank: Path, undisturbed: Path, tmp_path: Path) -> None:
    ours, theirs = os.pipe()
    os.close(ours)
    ended = started(bank, tmp_path, capture_output=False, stderr=theirs, stdout=subprocess.DEVNULL)
    os.close(theirs)
    assert ended.returncode == REFUSED_STATUS
    assert left(tmp_path) == left(undisturbed)


def test_an_unreadable_folder(bank: Path, undisturbed: Path, tmp_path: Path) -> None:
    source = tmp_path / "in"
    shutil.copytree(bank, source)
    (source / "site001").chmod(0)
    ended = started(source, tmp_path / "out", before=without_rights())
    (source / "site001").chmod(0o755)
    assert ended.returncode == UNUSABLE
    assert refusals(tmp_path / "out")["site001/", ""] == "The folder can't be read: Permission denied."
    assert sum(not row["series"] for row in report(tmp_path / "out")) == 51
    assert started(source, tmp_path / "out").returncode == REFUSED_STATUS
    assert left(tmp_path / "out") == left(undisturbed)
    (source / "site001").chmod(0)
    ended = started(source, tmp_path / "out", "--prune", before=without_rights())
    (source / "site001").chmod(0o755)
    assert ended.returncode == UNUSABLE  # and what lies there is neither done nor gone
    assert len(Manifest(tmp_path / "out")._places) == FILES + 1
    started(source, tmp_path / "out")
    assert left(tmp_path / "out") == left(undisturbed)


def test_two_runs_at_once(bank: Path, undisturbed: Path, tmp_path: Path) -> None:
    held = Manifest(tmp_path)
    ended = started(bank, tmp_path)
    held.close()
    assert ended.returncode == UNUSABLE and ended.stderr.startswith(f"Another run is writing to {tmp_path}.")


def test_a_bar_on_a_terminal(bank: Path, tmp_path: Path) -> None:
    ours, theirs = pty.openpty()
    ended = started(bank, tmp_path, capture_output=False, stderr=theirs, stdout=subprocess.PIPE)
    os.close(theirs)
    said = os.read(ours, 65_536).decode()
    os.close(ours)
    assert ended.returncode == REFUSED_STATUS
    assert f"/{FILES} [" in said and "files/s]" in said
