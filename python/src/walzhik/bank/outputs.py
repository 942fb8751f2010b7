"""The outputs of one file in the output folder: written whole and together, by the run that may write there now, and
with nothing left of what an earlier run wrote for the same file.
"""

from __future__ import annotations

import errno
import os
from collections.abc import Iterator
from contextlib import contextmanager, suppress
from hashlib import sha256
from pathlib import Path
from shutil import rmtree

from ..files import named, put_aside, put_folder_aside
from . import lock
from .inputs import shown, stem
from .places import INDICES, SHEET, SHEETS
from .records import Record

Piece = bytes | dict[str, bytes]  # a file, or a folder of files by their names
OF_ONE_FILE = (errno.EISDIR, errno.ENOTDIR, errno.EEXIST, errno.ENAMETOOLONG, errno.ENOTEMPTY)  # not of the whole disk


class Halt(Exception):
    """The whole run must end; the message says why and what to do."""


class InTheWay(Exception):
    """This file's outputs can't have their names; the message says why."""


def put(record: Record, outputs: dict[str, bytes], output: Path, number: str) -> Record:
    """Write the outputs of a file, take away all others of its name, and give the record with their hashes.

    Parameters
    ----------
    record : Record
        What the file came to.
    outputs : dict
        The bytes of each output by its path below the output folder.
    output : Path
        The output folder.
    number : str
        The run's, which must be that of the folder's lock.

    Raises
    ------
    Halt
        If nothing can be written there, or the run of this number is over.
    """
    try:
        with writing(record.path, output):
            keep(outputs, output, number, record.path)
    except InTheWay as error:
        words = f"Its outputs can't be written: {error}. Give the file or the folder another name."
        clear(record.path, output, number)
        return Record(record.path, refusal=words, seconds=record.seconds)
    return record._replace(outputs={path: sha256(data).hexdigest() for path, data in sorted(outputs.items())})


def keep(outputs: dict[str, bytes], output: Path, number: str, path: str) -> None:
    """Write outputs under temporary names, then give all of them their own while the run's number is held."""
    aside: dict[str, str] = {}  # the temporary name of each that has not its own yet
    try:
        for name, piece in pieces(outputs, output, path).items():
            aside[name] = begun(name, piece)
        with lock.held(output, number):
            for name in list(aside):
                give_name(aside[name], name)
                del aside[name]
            for place in standing(path, output):
                if place not in outputs:
                    take_away(output / place)
    finally:
        for made in aside.values():
            drop(made)


def pieces(outputs: dict[str, bytes], output: Path, path: str) -> dict[str, Piece]:
    """What gets a name in one step, by that name: a folder of sheets that is not there yet as a whole, else each output."""
    folder = f"{stem(path)}{SHEETS}"
    is_new = not os.path.lexists(f"{output}/{folder}")
    found: dict[str, Piece] = {}
    sheets: dict[str, bytes] = {}
    for place, data in outputs.items():
        if is_new and place.endswith(SHEET):
            found[f"{output}/{folder}"] = sheets
            sheets[place.rpartition("/")[2]] = data
        else:
            found[f"{output}/{place}"] = data
    return found


def give_name(made: str, name: str) -> None:
    """Give what was written aside its name. Where a folder has come meanwhile, its files go there one by one: a worker that
    was taken for lost may have written them too."""
    with named(name):
        try:
            os.replace(made, name)
        except OSError as error:
            if error.errno not in (errno.ENOTEMPTY, errno.EEXIST):
                raise
            for each in os.listdir(made):
                os.replace(f"{made}/{each}", f"{name}/{each}")
            os.rmdir(made)


def drop(made: str) -> None:
    """Leave nothing of what was written aside; it may have been swept, as that of a writer that was taken for lost."""
    with suppress(FileNotFoundError):
        if os.path.isdir(made):
            rmtree(made, ignore_errors=True)
        else:
            os.unlink(made)


def clear(path: str, output: Path, number: str) -> int:
    """Take away the outputs of a file that came to nothing, and say how many there were."""
    with writing(path, output), lock.held(output, number):
        found = list(standing(path, output))
        for place in found:
            take_away(output / place)
    return len(found)


def standing(path: str, output: Path) -> Iterator[str]:
    """The outputs of a file that stand in the output folder, whoever wrote them, by their paths below it."""
    front = stem(path)
    for ending in ("csv", "rwl"):
        if os.path.isfile(f"{output}/{front}{INDICES}{ending}"):
            yield f"{front}{INDICES}{ending}"
    folder = f"{front}{SHEETS}"
    with suppress(FileNotFoundError, NotADirectoryError), os.scandir(f"{output}/{folder}") as entries:
        for name in sorted(entry.name for entry in entries):
            if name.endswith(SHEET):
                yield f"{folder}/{name}"


def are_as_left(outputs: dict[str, str], output: Path, path: str) -> bool:
    """Whether just these outputs of a file stand in the output folder, with these hashes."""
    try:
        if set(standing(path, output)) != outputs.keys():
            return False
        return all(sha256((output / place).read_bytes()).hexdigest() == made for place, made in outputs.items())
    except OSError:
        return False


def begun(path: str, piece: Piece) -> str:
    """The temporary name of a new file or a new folder of files, and the folder around it where that is missing: asked for
    in this order, since it is mostly there."""
    try:
        return put_aside(path, piece) if isinstance(piece, bytes) else put_folder_aside(path, piece)
    except FileNotFoundError:
        folder = os.path.dirname(path)
        with named(folder):
            os.makedirs(folder, exist_ok=True)
        return put_aside(path, piece) if isinstance(piece, bytes) else put_folder_aside(path, piece)


def take_away(path: Path) -> None:
    """Take an output away, and its folder of sheets when that is empty then."""
    path.unlink(missing_ok=True)
    if path.parent.name.endswith(SHEETS):
        with suppress(OSError):  # it holds something else
            path.parent.rmdir()


@contextmanager
def writing(path: str, output: Path) -> Iterator[None]:
    """Errors of writing: InTheWay where this file's names are in the way, Halt where no file could be written."""
    try:
        yield
    except lock.Outlived as error:
        raise Halt(f"The run that asked for {shown(path)} is over, or {output} is not its output folder.") from error
    except OSError as error:
        where, why = shown(str(error.filename or output)), error.strerror or str(error)
        if error.errno in OF_ONE_FILE:
            raise InTheWay(f"{where}: {why}") from error
        raise Halt(f"The outputs of {shown(path)} can't be written. {where}: {why}.") from error
