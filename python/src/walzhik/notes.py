"""The notes of the proved call that brings a laboratory's file into the strict form, in words. Apart because the commands, the data
bank and the screen must tell the same note alike; number and line are the call's.
"""

from __future__ import annotations

from collections.abc import Iterable
from typing import NamedTuple

from ._changes import Change, Changes
from ._place import called
from .words.numbers import count
from .words.table import say

ACCEPTED = 0  # the number of an answer, under which words.tsv has the notes
FIRST_REMARK = 12  # from which on a note tells of no change, but of what a date may hang on


class Note(NamedTuple):
    """What was changed or left out in a line, or what to look at there: a number and the line of the file, from 1."""

    number: int
    line: int


def sentences(notes: Iterable[Note]) -> list[str]:
    """The notes in words: changes by rising line, the same one on lines that follow each other as one sentence; then a sentence for
    each kind of remark.

    Examples
    --------
    >>> for words in sentences([Note(3, 1), Note(3, 2), Note(8, 2), Note(13, 2), Note(13, 4)]):
    ...     print(words[:66])
    Lines 1 to 2: the line end of Windows became a plain one.
    Line 2: a line end was put behind the last line.
    Lines 2, 4: the last width here is 999 in a series of thousandths,
    """
    changes, kinds = Changes(), dict[int, Changes]()
    words: dict[int, str] = {}
    for number, line in notes:
        if number not in words:
            words[number] = say(ACCEPTED, f"note-{number}")
        told = changes if number < FIRST_REMARK else kinds.setdefault(number, Changes())
        told.add(line, words[number])
    return [*map(str, changes.listed()), *(_as_one(words[number], kinds[number].listed()) for number in sorted(kinds))]


def _as_one(words: str, found: list[Change]) -> str:
    """The sentence for a remark on several lines."""
    lines = [str(each.line) if each.line == each.last else f"{each.line} to {each.last}" for each in found]
    is_one = len(found) == 1 and found[0].line == found[0].last
    return f"{'Line' if is_one else 'Lines'} {', '.join(lines)}: {words}."


def remarks(notes: Iterable[Note]) -> list[Note]:
    """The notes that tell of no change.

    Examples
    --------
    >>> remarks([Note(3, 1), Note(12, 1)])
    [Note(number=12, line=1)]
    """
    return [note for note in notes if note.number >= FIRST_REMARK]


def summary(notes: Iterable[Note]) -> str:
    """How many lines were changed or left out, in one sentence; an empty text where none was.

    Examples
    --------
    >>> summary([Note(3, 1), Note(5, 1), Note(3, 2)])
    '2 lines were brought into the strict form; ./walzhik clean lists them.'
    >>> summary([Note(13, 1)])
    ''
    """
    lines = len({note.line for note in notes if note.number < FIRST_REMARK})
    if not lines:
        return ""
    what = f"{count(lines, 'line')} {'was' if lines == 1 else 'were'} brought into the strict form"
    return f"{what}; {called()} clean lists {'it' if lines == 1 else 'them'}."
