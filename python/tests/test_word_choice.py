"""The choice of words: words/cases.tsv has inputs for every row that both languages can choose, and R's tests walk the same table
(r/tests/testthat/test-choice.R). The engine is not asked here; test_words.py asks it for every row."""

from __future__ import annotations

import re
from collections.abc import Mapping
from pathlib import Path
from typing import NamedTuple

import pytest

from walzhik import Refused
from walzhik.tucson import Series
from walzhik.words import file, lists, series, strict
from walzhik.words.table import Words, chosen, holds, table

IN_BOTH = {"lists", "series", "text", "file", "file-then"}
HOLE = re.compile(r"\{([a-z_]+)\}")


class Case(NamedTuple):
    """A line of cases.tsv: the row that a refusal gets, by what the call was given."""

    number: int
    case: str
    place: int
    given: str
    asked: dict[str, str]
    text: bytes

    def numbers(self, name: str) -> list[int]:
        """A list that is asked for; 0*3 stands for three zeros."""
        parts = [each.split("*") for each in self.asked.get(name, "").split(",") if each]
        return [int(part[0]) for part in parts for _ in range(int(part[1]) if len(part) > 1 else 1)]

    def refused(self) -> Refused:
        """The refusal with its words, as the package makes it."""
        if self.given == "lists":
            return lists.refusal(self.lists(), self.number, self.place)
        if self.given == "series":
            return series.refused(self.series(), self.number, self.place)
        if self.given == "text":
            return strict.refused(self.text, self.number, self.place)
        header = self.asked.get("header")
        given = file.Given(self.text, None if header is None else int(header), self.asked.get("unit"))
        return file.refused(given, self.number, self.place)

    def lists(self) -> lists.Lists:
        names = ("breaks", "degrees", "orders", "positions", "widths", "ordinates", "values")
        made = lists.Lists(**{name: self.numbers(name) for name in names})
        made.pairs = [list(map(int, pair.split(":"))) for pair in self.asked.get("pairs", "").split(",") if pair]
        made.first, made.width = int(self.asked.get("first", 0)), int(self.asked.get("width", 0))
        return made

    def series(self) -> list[Series]:
        widths, made = iter(self.numbers("widths")), []
        for name, year, count in zip(self.asked["names"].split(","), self.numbers("years"), self.numbers("counts")):
            made.append(Series(name, year, [width for width, _ in zip(widths, range(count))]))
        return made


def cases() -> list[Case]:
    made = []
    for line in (Path(__file__).parent / "words" / "cases.tsv").read_text("ascii").splitlines()[1:]:
        number, case, place, given, asked, text = line.split("\t")
        pairs = [each.partition("=")[::2] for each in asked.split(" ") if each]
        data = text.encode("ascii").decode("unicode_escape").encode("latin-1")
        made.append(Case(int(number), case, int(place), given, dict(pairs), data))
    return made


def said_of(case: Case, monkeypatch: pytest.MonkeyPatch) -> set[tuple[int, str]]:
    """The rows that are said of a case, all of whose words are filled in."""
    said: set[tuple[int, str]] = set()
    plain = Words.told

    def noted(row: Words, facts: Mapping[str, object]) -> str:
        said.add((row.number, row.case))
        assert all(facts[name] is not None for name in HOLE.findall(row.words)), row
        return plain(row, facts)

    with monkeypatch.context() as patched:
        patched.setattr(Words, "told", noted)
        assert case.refused().number == case.number
    return said


@pytest.mark.parametrize("case", cases(), ids=lambda case: f"{case.given}-{case.number}-{case.case}")
def test_row(case: Case, monkeypatch: pytest.MonkeyPatch) -> None:
    assert (case.number, case.case) in said_of(case, monkeypatch)


def test_every_row_for_each_that_is_given_has_a_case() -> None:
    has = {(case.number, case.case, case.given) for case in cases()}
    needed = {
        (row.number, row.case, each.partition("-")[0])
        for row in table().values()
        for each in row.given
        if each in IN_BOTH
    }
    assert has >= needed and len(needed) > 70


def test_conditions() -> None:
    facts = {"ring": 0, "other": None, "is_so": False, "text": "a"}
    assert [holds(each, facts) for each in ("ring", "no other", "no is_so", "text", "ring = 0", "ring <= ring")] == [
        True
    ] * 6
    assert [holds(each, facts) for each in ("other", "is_so", "no ring", "ring < other", "other outside 0..1")] == [
        False
    ] * 5
    assert holds("ring outside 1..2", facts) and not holds("ring outside -1..0", facts)
    with pytest.raises(KeyError):
        holds("nothing", facts)
    with pytest.raises(ValueError):
        holds("ring is not so", facts)
    assert chosen(99, "lists", facts) is None
