"""The C header: its functions around the proved calls, which lend a valid pointer for an empty list, and its numbers."""

from __future__ import annotations

import re
import shutil
import subprocess
from pathlib import Path

import pytest
from running import ROOT

from walzhik import _build
from walzhik.words.table import table

CC = ("cc", "-std=c11", "-Wall", "-Wextra", "-Werror", f"-I{ROOT / 'include'}")
DRIVER = ROOT / "tests" / "driver"
VECTORS = """#include <vector>
#include "walzhik_indices.h"
int main()
{
    std::vector<int32_t> none;
    std::vector<int64_t> weights;
    walzhik_reply reply = walzhik_build(none.data(), none.size(), none.data(), none.size(), none.data(), none.size(),
                                        weights.data(), weights.size(), weights.data(), weights.size());
    return reply.number == WALZHIK_SHORT_BUFFER ? 0 : 1;
}
"""


def ran(folder: Path, *options: str) -> tuple[int, str]:
    """The status and the words of empty.c over calls that stop at a null pointer."""
    made, part = folder / "nulls", folder / "empty.o"
    subprocess.run([*CC, *options, "-c", DRIVER / "empty.c", "-o", part], check=True)
    subprocess.run([*CC, part, DRIVER / "nulls.c", "-o", made], check=True)
    ended = subprocess.run([made], capture_output=True, text=True, check=False)
    return ended.returncode, ended.stdout


def test_no_call_gets_a_null_pointer(tmp_path: Path) -> None:
    assert ran(tmp_path) == (0, "")


def test_the_proved_calls_themselves_get_what_they_are_given(tmp_path: Path) -> None:
    assert ran(tmp_path, "-DWALZHIK_PROVED_CALLS") == (1, "build got a null pointer\n")


@pytest.mark.parametrize("is_real", [False, True])
def test_empty_vectors(tmp_path: Path, is_real: bool) -> None:
    if shutil.which("g++") is None:
        pytest.skip("there is no compiler for C++")
    (tmp_path / "a.cpp").write_text(VECTORS)
    subprocess.run([*CC, "-c", DRIVER / "nulls.c", "-o", tmp_path / "nulls.o"], check=True)
    archives = _build.archives(ROOT) if is_real else [tmp_path / "nulls.o"]
    command = ["g++", "-Wall", "-Wextra", "-Werror", f"-I{ROOT / 'include'}", tmp_path / "a.cpp", *archives]
    subprocess.run([*command, "-o", tmp_path / "a"], check=True)
    assert subprocess.run([tmp_path / "a"], check=False).returncode == 0


def test_every_number_has_a_name() -> None:
    text = (ROOT / "include" / "walzhik.h").read_text(encoding="ascii")
    named = {int(number) for _, number in re.findall(r"^    (WALZHIK_\w+) = (\d+),?$", text, re.MULTILINE)}
    assert named == {0, *(number for number, _ in table())}


def test_every_call_has_a_function_around_it() -> None:
    for header in _build.headers(ROOT / "include"):
        text = header.read_text(encoding="ascii")
        calls = re.findall(r"^\w+ (walzhik_\w+)\(", _build.declarations(text), re.MULTILINE)
        assert calls and all(f"#define {name} {name}_lent\n" in text for name in calls)
