"""The one table of words that the package, the command, the manual and the R package share, and the choice of a row: the first
whose number is refused, whose call was given the same, and whose conditions hold. R makes the choice by the same lines
(r/R/reasons.R); what is left to each language is to find the facts.
"""

from __future__ import annotations

import operator
from collections.abc import Callable, Mapping
from functools import lru_cache
from importlib.resources import files
from typing import Any, NamedTuple

Fact = int | str | None  # None and False for what is not there
Facts = Mapping[str, Fact]

SIGNS: dict[str, Callable[[Any, Any], bool]] = {
    "=": operator.eq,
    "!=": operator.ne,
    "<": operator.lt,
    "<=": operator.le,
    ">": operator.gt,
    ">=": operator.ge,
}


class Words(NamedTuple):
    """A row of words.tsv: what is said of one case of a refusal.

    Attributes
    ----------
    number : int
        The engine's reason; 0 for the notes of an answer.
    case : str
        The row's name under that number.
    given : tuple of str
        What the call was given: lists, series, text (a strict Tucson text), file (a laboratory's), sheet. A further
        sentence behind a file's is under ``file-then``, a piece of a sheet's sentence under ``entry`` or ``number``; what
        only callers in C and Rust meet is under ``call``, and a note under ``note``.
    when : tuple of str
        The conditions, all of which must hold: ``NAME``, ``no NAME``, ``NAME sign OTHER`` with a name or a whole number,
        and ``NAME outside LEAST..MOST``. A name is that of a fact.
    counts : str
        What the place counts: breakpoint, stretch, join, line, ring of the series and so on; ``fragment`` for a row
        that is a piece of another row's sentence.
    words : str
        The sentence, with names of facts in braces.
    remedy : str
        What to do.
    """

    number: int
    case: str
    given: tuple[str, ...]
    when: tuple[str, ...]
    counts: str
    words: str
    remedy: str

    def told(self, facts: Mapping[str, object]) -> str:
        """The sentence with what it tells put in."""
        return self.words.format_map({key: str(value) for key, value in facts.items()})


@lru_cache(maxsize=None)
def table() -> Mapping[tuple[int, str], Words]:
    """The table of words in its order, by number and case.

    Examples
    --------
    >>> table()[4, "degree"].counts
    'stretch'
    """
    lines = files(__package__).joinpath("words.tsv").read_text(encoding="utf-8").splitlines()[1:]
    made: dict[tuple[int, str], Words] = {}
    for number, case, given, when, *said in (line.split("\t") for line in lines):
        conditions = tuple(when.split(", ")) if when else ()
        made[int(number), case] = Words(int(number), case, tuple(given.split()), conditions, *said)
    return made


def holds(condition: str, facts: Facts) -> bool:
    """Whether a condition holds; nothing is less, more or the same where there is no such fact.

    Examples
    --------
    >>> facts = {"ring": 10001, "before": None}
    >>> holds("ring outside -10000..10000", facts), holds("ring <= before", facts), holds("no before", facts)
    (True, False, True)
    """
    match condition.split(" "):
        case [name]:
            return facts[name] is not None and facts[name] is not False
        case ["no", name]:
            return facts[name] is None or facts[name] is False
        case [name, "outside", limits]:
            value: Any = facts[name]
            least, most = map(int, limits.split(".."))
            return value is not None and not least <= value <= most
        case [name, sign, other]:
            one, two = facts[name], int(other) if other.lstrip("-").isdecimal() else facts[other]
            return one is not None and two is not None and SIGNS[sign](one, two)
    raise ValueError(f"words.tsv: {condition!r} is no condition")


def chosen(number: int, given: str, facts: Facts) -> Words | None:
    """The first row of a number for what was given whose conditions hold, or None.

    Examples
    --------
    >>> chosen(4, "lists", {"degree": 6}).case
    'degree'
    """
    rows = (row for row in table().values() if row.number == number and given in row.given)
    return next((row for row in rows if all(holds(each, facts) for each in row.when)), None)


def say(number: int, case: str, /, **told: object) -> str:
    """The words of a case, with what they tell put in.

    Examples
    --------
    >>> say(16, "width", start=0, end=150, width="4.000", wood="earlywood")
    'No position from ring 0 to ring 150 reaches 4.000 mm in the earlywood.'
    """
    return table()[number, case].told(told)
