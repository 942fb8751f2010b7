"""What is told of a file that was read: changes by their lines, and the complaint about what a front cannot place. It stands apart
because the proved call's notes and the fronts for Heidelberg files and tables are told in the same way."""

from __future__ import annotations

from dataclasses import dataclass


@dataclass(frozen=True)
class Change:
    """One change of the text, or the same change on lines that follow each other.

    Attributes
    ----------
    line : int
        The line of the file, from 1; of several, the first.
    words : str
        What was changed.
    last : int
        The last line with this change.

    Examples
    --------
    >>> str(Change(4, "trailing blanks were taken off", 4))
    'Line 4: trailing blanks were taken off.'
    >>> str(Change(1, "the line end of Windows became a plain one", 230))
    'Lines 1 to 230: the line end of Windows became a plain one.'
    """

    line: int
    words: str
    last: int

    def __str__(self) -> str:
        where = f"Line {self.line}" if self.line == self.last else f"Lines {self.line} to {self.last}"
        return f"{where}: {self.words}."


class Unreadable(Exception):
    """What a front for Heidelberg files or tables must not guess.

    Attributes
    ----------
    line : int
        The line of the file, from 1.
    words : str
        What is wrong there.
    remedy : str
        What to do about it.

    Examples
    --------
    >>> str(Unreadable(3, "it holds a zero byte.", "Save the file as plain text."))
    'Line 3: it holds a zero byte. Save the file as plain text.'
    """

    def __init__(self, line: int, words: str, remedy: str) -> None:
        super().__init__(line, words, remedy)
        self.line, self.words, self.remedy = line, words, remedy

    def __str__(self) -> str:
        return f"Line {self.line}: {self.words} {self.remedy}"


class Changes:
    """Collects changes; the same words on lines that follow each other become one entry."""

    def __init__(self) -> None:
        self._lines: dict[str, list[int]] = {}

    def add(self, line: int, words: str) -> None:
        self._lines.setdefault(words, []).append(line)

    def listed(self) -> list[Change]:
        """All changes by rising line; a table's columns tell theirs one after the other."""
        runs: list[Change] = []
        for words, told in self._lines.items():
            lines = sorted(set(told))
            first = before = lines[0]
            for line in lines[1:]:
                if line > before + 1:
                    runs.append(Change(first, words, before))
                    first = line
                before = line
            runs.append(Change(first, words, before))
        return sorted(runs, key=lambda change: (change.line, change.last))
