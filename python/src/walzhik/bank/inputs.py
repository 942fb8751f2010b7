"""The files of a data bank: what is found below folders or named by lists, in order of path, with a complaint beside
what can't be taken. Nothing is passed over in silence.
"""

from __future__ import annotations

import os
import stat
from collections.abc import Iterable, Iterator, Sequence
from pathlib import Path
from typing import NamedTuple

from ..failures import Unusable
from ..files import STANDARD, read_whole
from .places import RESERVED, is_output

GZIP, LIST = ".gz", ".txt"
SEARCHED = (".rwl.gz", ".rwl", ".fh.gz", ".fh")  # endings that a search below a folder takes
NAMED = (*SEARCHED, ".csv.gz", ".csv", ".tsv.gz", ".tsv")  # folders hold tables of all kinds, so these must be named
TAKEN = ".rwl, .fh, .csv or .tsv (or such a one with .gz)"
PACKING = 4  # about so many times as many bytes come out of a packed file
Identity = tuple[int, int]  # device and number: what tells a folder from every other


class Input(NamedTuple):
    """A file of the data bank.

    Attributes
    ----------
    path : str
        Where its outputs stand below the output folder; it ends in ``/`` for a folder that could not be searched.
    source : str
        Where the file is, from the root.
    complaint : str
        Why it is not taken, or an empty text.
    size : int
        Its bytes when it was found, unpacked by guess: large ones are done first.
    """

    path: str
    source: str
    complaint: str = ""
    size: int = 0


class Found(NamedTuple):
    """What is found.

    Attributes
    ----------
    inputs : list of Input
        In order of path.
    notes : list of str
        What was left out with good reason, in words.
    """

    inputs: list[Input]
    notes: list[str]


def shown(path: str) -> str:
    r"""A path as text that any terminal or table takes.

    Examples
    --------
    >>> print(shown("oak\udcff\n.rwl"))
    oak\xff\x0a.rwl
    """
    text = os.fsencode(path).decode("utf-8", "backslashreplace")
    return "".join(sign if sign.isprintable() else f"\\x{ord(sign):02x}" for sign in text)


def ending(path: str) -> str:
    """The ending that makes a path a file of widths, or an empty text where it has none."""
    return next((each for each in NAMED if path.lower().endswith(each)), "")


def stem(path: str) -> str:
    """A path without the ending that makes it a file of widths, or an empty text where it has none.

    Examples
    --------
    >>> stem("oak/roof.rwl.gz"), stem("oak/ROOF.RWL"), stem("oak/roof.txt")
    ('oak/roof', 'oak/ROOF', '')
    """
    return path[: -len(ending(path))] if ending(path) else ""


def found(given: Sequence[str], output: str) -> Found:
    """All inputs in order of path.

    Parameters
    ----------
    given : sequence of str
        Folders, which are searched deep for .rwl and .fh; files of widths, also tables; and lists (.txt, or ``-`` for
        standard input) with a path a line.
    output : str
        The output folder, which is never searched, nor is that of an earlier run.

    Raises
    ------
    Unusable
        If one of them is nothing of that kind, or two have one place below the output folder.
    """
    notes: list[str] = []
    by_path: dict[str, Input] = {}
    for each in sorted(_of_all(given, output, notes)):
        before = by_path.setdefault(each.path, each)
        if before.source != each.source:
            raise Unusable(
                f"{shown(before.source)} and {shown(each.source)} would both have the place {shown(each.path)} below "
                "the output folder. Run them one after the other, into folders of their own."
            )
    return Found(list(_without_shared_stems(by_path.values())), notes)


def _of_all(given: Sequence[str], output: str, notes: list[str]) -> Iterator[Input]:
    for name in given:
        if name == STANDARD or (name.lower().endswith(LIST) and not os.path.isdir(name)):
            yield from (_listed(line, output) for line in _lines(name))
        elif os.path.isdir(name):
            _refuse_nested(name, output)
            yield from Search(os.path.realpath(output), notes).below(os.path.abspath(name), "", ())
        else:
            yield _listed(name, output)


def _lines(name: str) -> list[str]:
    """The paths of a list, which are bytes as the system has them."""
    try:
        lines = read_whole(name).split(b"\n")
    except OSError as error:
        raise Unusable(f"{shown(name)}: {error.strerror or error}") from error
    return [os.fsdecode(line.removesuffix(b"\r")) for line in lines if line.strip()]


def _listed(name: str, output: str) -> Input:
    """A file that is named by itself: its place is its path, from the root where it starts there."""
    if "\0" in name or not ending(name) or os.path.isdir(name):
        raise Unusable(
            f"{shown(name)}: an input is a folder, a file that ends in {TAKEN}, or a list ({LIST}, a path a line)."
        )
    path = os.path.normpath(name).lstrip("/")
    if path.startswith("../"):
        raise Unusable(
            f"{shown(name)}: a path that goes up has no place below the output folder. Give it from the root."
        )
    if Path(os.path.realpath(name)).is_relative_to(os.path.realpath(output)):
        raise Unusable(f"{shown(name)} lies in the output folder. Give another output folder.")
    return _taken(path, os.path.abspath(name))


def _refuse_nested(folder: str, output: str) -> None:
    if Path(os.path.realpath(folder)).is_relative_to(os.path.realpath(output)):
        raise Unusable(f"{shown(folder)} lies in the output folder, or is it. Give another output folder.")


class Search:
    """A search below a folder. What is wrong with an entry is said of that entry, and the rest is searched.

    Parameters
    ----------
    output : str
        The output folder by its real path.
    notes : list of str
        Takes what is left out with good reason.
    """

    def __init__(self, output: str, notes: list[str]) -> None:
        self._output, self._notes = output, notes

    def below(self, folder: str, place: str, above: tuple[Identity, ...]) -> Iterator[Input]:
        """What is found below a folder. A link is followed, but not into a folder that it lies in."""
        try:
            state = os.stat(folder)
            with os.scandir(folder) as entries:
                names = sorted(entry.name for entry in entries)
        except OSError as error:
            yield Input(f"{place or '.'}/", folder, f"The folder can't be read: {error.strerror or error}.")
            return
        identity = (state.st_dev, state.st_ino)
        if identity in above:
            yield Input(f"{place}/", folder, "It is a link to a folder that it lies in, and is not followed.")
            return
        for name in names:
            yield from self._entry(os.path.join(folder, name), os.path.join(place, name), (*above, identity))

    def _entry(self, source: str, path: str, above: tuple[Identity, ...]) -> Iterator[Input]:
        try:
            is_folder = stat.S_ISDIR(os.stat(source).st_mode)
        except FileNotFoundError:  # a link to nothing, or gone since the folder was read
            is_folder = False
        except OSError as error:
            yield Input(path, source, f"It can't be read: {error.strerror or error}.")
            return
        if not is_folder:
            if ending(path) in SEARCHED:
                yield _taken(path, source)
        elif os.path.realpath(source) == self._output:
            return
        elif is_output(source):
            self._notes.append(f"{shown(path)}/ is the output folder of an earlier run, and is not searched.")
        else:
            yield from self.below(source, path, above)


def _taken(path: str, source: str) -> Input:
    """A file with its size, or with why it can't be taken, before it is opened."""
    if path.split("/", 1)[0] in RESERVED:
        words = "Its folder has the name of a file of the report. Give the folder another name."
        return Input(path, source, words)
    if not stem(os.path.basename(path)):
        return Input(path, source, f"It has no name before {ending(path)}. Give it one.")
    try:
        state = os.stat(source)
    except OSError as error:
        return Input(path, source, f"It can't be read: {error.strerror or error}.")
    if not stat.S_ISREG(state.st_mode):
        return Input(path, source, "It is no plain file.")
    return Input(path, source, "", state.st_size * (PACKING if ending(path).endswith(GZIP) else 1))


def _without_shared_stems(inputs: Iterable[Input]) -> Iterator[Input]:
    """The inputs; of two that could be taken and whose outputs would have one name, the second gets a complaint."""
    seen: dict[str, str] = {}
    for each in inputs:
        before = each.path if each.complaint else seen.setdefault(stem(each.path), each.path)
        if before != each.path:
            words = f"Its outputs would have the names of those of {shown(before)}. Give one of them another name."
            each = each._replace(complaint=words)
        yield each
