"""What is done already: the manifest of the last finished run, and the journal of one that is under way. Both have a
record a line. The journal only grows, so that a run that is killed loses nothing but the line it was at; when all is
done it becomes the manifest, in order of path and without seconds, the same whatever the run was.
"""

from __future__ import annotations

import fcntl
import io
import os
from collections.abc import Collection, Iterator
from pathlib import Path
from typing import IO

from ..failures import Unusable
from ..files import Part, named
from . import lock
from .places import JOURNAL, MANIFEST, MARK
from .records import Record


class Known:
    """The records of an output folder, to be read: where the last one of each path begins.

    Parameters
    ----------
    output : Path
        The output folder; it may be missing.
    """

    def __init__(self, output: Path) -> None:
        self.output = output
        self._files: dict[str, IO[bytes]] = {}
        self._places: dict[str, tuple[str, int]] = {}
        for name in (MANIFEST, JOURNAL):
            if (output / name).exists():
                with named(output / name):
                    self._index(name)

    def _index(self, name: str) -> None:
        """Where the last record of each path begins. A line that is no record, as half a line, is passed over: its file
        is then done again."""
        self._files[name] = (self.output / name).open("rb")
        place = 0
        for line in self._files[name]:
            try:
                self._places[Record.read(line).path] = (name, place)
            except ValueError:
                pass
            place += len(line)

    def line_of(self, path: str) -> bytes:
        """The record of a path as a line, or nothing where there is none."""
        if path not in self._places:
            return b""
        name, place = self._places[path]
        with named(self.output / name):
            self._files[name].seek(place)
            return self._files[name].readline()

    def of(self, path: str) -> Record | None:
        """The record of a path, if there is one."""
        line = self.line_of(path)
        return Record.read(line) if line else None

    def gone(self, paths: Collection[str]) -> Iterator[Record]:
        """The records with outputs whose path is none of these, in order of path."""
        for path in sorted(self._places.keys() - set(paths)):
            record = self.of(path)
            if record is not None and record.outputs:
                yield record

    def close(self) -> None:
        """Close the files."""
        for file in self._files.values():
            file.close()


class Manifest(Known):
    """The records of an output folder. It is this run's alone until it is closed.

    Parameters
    ----------
    output : Path
        The output folder, which is made where it is missing.

    Attributes
    ----------
    number : str
        The run's number: who reads it in the folder's lock has the same folder before it.

    Raises
    ------
    Unusable
        If another run has the folder, or it can't be written to.
    """

    def __init__(self, output: Path) -> None:
        try:
            output.mkdir(parents=True, exist_ok=True)
            self._journal: IO[bytes] | io.FileIO = _locked(output / JOURNAL)
            try:
                self.number = lock.begin(output)
                super().__init__(output)
                self._compact()
            except BaseException:
                self._journal.close()
                raise
        except OSError as error:
            told = f"{error.filename or output}: {error.strerror or error}"
            raise Unusable(f"The output folder can't be used. {told}.") from error
        except lock.Held as error:
            words = f"A worker of an earlier run is still writing to {output}, and does not end"
            raise Unusable(f"{words}. End it, or give another folder.") from error

    def _compact(self) -> None:
        """Begin the journal anew, with the last record of each path that the old one has. The new file is this run's
        before it takes the old one's name."""
        part = Part(self.output / JOURNAL)
        try:
            part.file.write(MARK + self.number.encode("ascii") + b"\n")
            part.file.writelines(self.line_of(path) for path, (name, _) in self._places.items() if name == JOURNAL)
            part.finish()
            made = open(part.made, "ab+", buffering=0)
            fcntl.flock(made, fcntl.LOCK_EX | fcntl.LOCK_NB)
            part.keep()
        finally:
            part.drop()
        self._journal.close()
        self._journal = made
        super().close()
        super().__init__(self.output)

    def add(self, path: str, line: bytes) -> None:
        """Put the record of a path, as a line, into the journal."""
        with named(self.output / JOURNAL):
            place = self._journal.seek(0, os.SEEK_END)
            rest = memoryview(line)
            while rest:
                rest = rest[self._journal.write(rest) :]
        self._places[path] = (JOURNAL, place)

    def finish(self) -> None:
        """Take the journal away: all that it says is in the manifest."""
        with named(self.output / JOURNAL):
            os.unlink(self.output / JOURNAL)

    def close(self) -> None:
        """Leave the folder to others. Nobody may write to it until the next run."""
        try:
            lock.end(self.output)
        except (OSError, lock.Held):
            pass  # a late worker writes what this run would have written
        self._journal.close()
        super().close()


def _locked(path: Path) -> IO[bytes]:
    """The journal, which no other run has: one that has it may take it away while we wait, so it is looked at again."""
    while True:
        file = path.open("ab+")
        try:
            fcntl.flock(file, fcntl.LOCK_EX | fcntl.LOCK_NB)
        except BlockingIOError:
            file.close()
            raise Unusable(f"Another run is writing to {path.parent}. Wait for it, or give another folder.") from None
        if path.exists() and os.path.samestat(os.fstat(file.fileno()), path.stat()):
            return file
        file.close()
