"""Files as the commands take them: read whole, `-` for standard input, and written whole or not at all. Apart because
every command needs it and none may do it in a way of its own.
"""

from __future__ import annotations

import errno
import os
import signal
import stat
import sys
from collections.abc import Iterable, Iterator, Mapping
from contextlib import contextmanager, suppress
from pathlib import Path
from shutil import copyfileobj, rmtree
from tempfile import SpooledTemporaryFile
from types import TracebackType
from typing import IO, Any

STANDARD = "-"
ALL_MAY = 0o666  # before the user's mask
SHELL_SIGNAL = 128  # what a shell adds to a signal's number in a status
PREFIX, SUFFIX = ".walzhik-", ".part"  # of temporary names, by which those of killed writers are found again
NAME_BYTES = 8
AT_ONCE = 2**20  # bytes that are written in one go
MOST_HELD = 16 * AT_ONCE  # that wait for standard output in memory
NEW = os.O_CREAT | os.O_EXCL | os.O_WRONLY | os.O_CLOEXEC


def read_whole(name: str) -> bytes:
    """All bytes of a file, or of standard input for ``-``."""
    return sys.stdin.buffer.read() if name == STANDARD else Path(name).read_bytes()


def same_as(output: str, inputs: Iterable[str]) -> str | None:
    """The input that an output would destroy, or None: by the identity of the file, whatever its names and links.

    ``-`` is what standard input or output stands for. A path that is not there is compared by where its links lead. What
    is no plain file, as a device or a pipe, can't be destroyed.

    Examples
    --------
    >>> import tempfile
    >>> folder = tempfile.mkdtemp()
    >>> _ = Path(f"{folder}/a.rwl").write_bytes(b"widths")
    >>> os.symlink("a.rwl", f"{folder}/b.csv")
    >>> same_as(f"{folder}/b.csv", ["-", f"{folder}/a.rwl"]) == f"{folder}/a.rwl"
    True
    """
    written = _identity(output, sys.stdout)
    return next((name for name in inputs if written is not None and _identity(name, sys.stdin) == written), None)


def _identity(name: str, stream: IO[Any]) -> tuple[object, ...] | None:
    """What makes a file the same one: device and number, or the path where nothing is there; None for what is no plain
    file."""
    try:
        found = os.fstat(stream.fileno()) if name == STANDARD else os.stat(name)
    except (OSError, ValueError):  # a stream without a file, or a path that is not there
        return None if name == STANDARD else (os.path.realpath(name),)
    return (found.st_dev, found.st_ino) if stat.S_ISREG(found.st_mode) else None


class named:
    """Say of system errors that they are about this path, not about a temporary name or about none."""

    def __init__(self, path: str | Path) -> None:
        self._path = path

    def __enter__(self) -> None:
        pass

    def __exit__(self, kind: type[BaseException] | None, error: BaseException | None, at: TracebackType | None) -> None:
        if isinstance(error, OSError):
            raise type(error)(error.errno, error.strerror or str(error), str(self._path)) from error


class Part:
    """A file under a temporary name beside its own, which it takes when it is kept.

    Parameters
    ----------
    path : Path
        The name that it takes.

    Attributes
    ----------
    file : binary file
        To write to.

    Examples
    --------
    >>> import tempfile
    >>> folder = Path(tempfile.mkdtemp())
    >>> part = Part(folder / "a")
    >>> _ = part.file.write(b"whole")
    >>> part.finish()
    >>> (folder / "a").exists()
    False
    >>> part.keep()
    >>> os.listdir(folder)
    ['a']
    """

    def __init__(self, path: Path) -> None:
        self.path, self._is_kept = path, False
        self.made = beside(path)
        with named(path):
            self.file: IO[bytes] = os.fdopen(os.open(self.made, NEW, ALL_MAY), "wb")

    def finish(self, *, is_synced: bool = False) -> None:
        """End the writing; with `is_synced` the bytes are on the disk then."""
        with named(self.path):
            self.file.flush()
            if is_synced:
                os.fsync(self.file.fileno())
            self.file.close()

    def keep(self) -> None:
        """Give the file its name."""
        with named(self.path):
            os.replace(self.made, self.path)
        self._is_kept = True

    def drop(self) -> None:
        """Leave nothing of it, unless it is kept."""
        if self._is_kept:
            return
        with suppress(OSError):  # what it couldn't write at the end
            self.file.close()
        with suppress(FileNotFoundError):  # swept, as one of a writer that was taken for lost
            os.unlink(self.made)


def beside(path: str | Path) -> str:
    """A temporary name in the folder of a path."""
    return f"{os.path.dirname(path) or os.curdir}/{PREFIX}{os.urandom(NAME_BYTES).hex()}{SUFFIX}"


def put_aside(path: str, data: bytes) -> str:
    """Write bytes under a temporary name beside a path, and give that name; on an error nothing is left of it.

    Examples
    --------
    >>> import tempfile
    >>> folder = tempfile.mkdtemp()
    >>> made = put_aside(f"{folder}/a", b"whole")
    >>> os.replace(made, f"{folder}/a")
    >>> Path(f"{folder}/a").read_bytes()
    b'whole'
    """
    made = beside(path)
    with named(path):
        handle = os.open(made, NEW, ALL_MAY)
        try:
            write_all(handle, data)
        except BaseException:
            with suppress(FileNotFoundError):
                os.unlink(made)
            raise
    return made


def put_folder_aside(path: str, files: Mapping[str, bytes]) -> str:
    """Write files by their names into a new folder with a temporary name beside a path, and give that name; on an error
    nothing is left of it.

    Examples
    --------
    >>> import tempfile
    >>> folder = tempfile.mkdtemp()
    >>> made = put_folder_aside(f"{folder}/a", {"b": b"whole"})
    >>> os.rename(made, f"{folder}/a")
    >>> Path(f"{folder}/a/b").read_bytes()
    b'whole'
    """
    made = beside(path)
    with named(path):
        os.mkdir(made)
    try:
        for name, data in files.items():
            try:
                write_all(os.open(f"{made}/{name}", NEW, ALL_MAY), data)
            except OSError as error:
                raise type(error)(error.errno, error.strerror or str(error), f"{path}/{name}") from error
    except BaseException:
        rmtree(made, ignore_errors=True)
        raise
    return made


def write_all(handle: int, data: bytes) -> None:
    """Write all bytes to an open file, and close it."""
    try:
        done = os.write(handle, data)
        while done < len(data):
            done += os.write(handle, memoryview(data)[done:])
    finally:
        os.close(handle)


@contextmanager
def written(path: Path, *, is_synced: bool = False) -> Iterator[IO[bytes]]:
    """A file to write to, which takes its name when all is written; on an error nothing is left of it.

    Parameters
    ----------
    path : Path
        The name that it takes.
    is_synced : bool
        Whether it is on the disk before it takes its name.
    """
    part = Part(path)
    try:
        try:
            yield part.file
        except OSError as error:
            if error.filename is not None:  # it is about another file
                raise
            raise type(error)(error.errno, error.strerror or str(error), str(path)) from error
        part.finish(is_synced=is_synced)
        part.keep()
    finally:
        part.drop()


def sweep(folder: Path) -> int:
    """Take away what killed writers have left below a folder, files or folders of them, and say how many that were.

    Examples
    --------
    >>> import tempfile
    >>> folder = Path(tempfile.mkdtemp())
    >>> _ = (folder / ".walzhik-a1.part").write_bytes(b"ha")
    >>> sweep(folder)
    1
    """
    count = 0
    for place, folders, names in os.walk(folder):
        for name in filter(is_temporary, names):
            with suppress(FileNotFoundError):
                os.unlink(os.path.join(place, name))
                count += 1
        for name in list(filter(is_temporary, folders)):
            folders.remove(name)
            rmtree(os.path.join(place, name), ignore_errors=True)
            count += 1
    return count


def is_temporary(name: str) -> bool:
    """Whether a name is one of those that files and folders have while they are written."""
    return name.startswith(PREFIX) and name.endswith(SUFFIX)


def _is_file_name(name: str) -> None:
    """Refuse a name that is none, or ends as a folder's does: without its end it may be that of an input."""
    if not name or name.endswith(os.sep):
        raise IsADirectoryError(errno.EISDIR, "a file's name is needed, and this is none", name or "''")


def write_whole(name: str, data: bytes) -> None:
    """Write a file whole or not at all; standard output for ``-``.

    The bytes go to a temporary file in the same folder, which then takes the file's name. What is no plain file, as a
    device or a pipe, is written to directly. A name that ends as a folder's does is refused, as the system does: without
    its end it may be that of an input.

    Examples
    --------
    >>> import tempfile
    >>> folder = tempfile.mkdtemp()
    >>> write_whole(f"{folder}/a", b"whole")
    >>> os.listdir(folder)
    ['a']
    """
    if name == STANDARD:
        write_out(data)
        return
    _is_file_name(name)
    path = Path(os.path.realpath(name))
    with named(name):
        if path.exists() and not path.is_file():
            path.write_bytes(data)
            return
        with written(path) as file:
            if path.exists():
                os.fchmod(file.fileno(), path.stat().st_mode)
            file.write(data)


def write_pieces(name: str, pieces: Iterable[bytes]) -> None:
    """As `write_whole`, for what comes piece by piece and is not held all at once; nothing is written where a piece fails.

    Examples
    --------
    >>> import tempfile
    >>> folder = tempfile.mkdtemp()
    >>> write_pieces(f"{folder}/a", (b"whole" for _ in range(2)))
    >>> Path(f"{folder}/a").read_bytes()
    b'wholewhole'
    """
    _is_file_name(name)
    path = Path(os.path.realpath(name))
    if name == STANDARD or (path.exists() and not path.is_file()):
        _pass_on(name, pieces)
        return
    with named(name), written(path) as file:
        if path.exists():
            os.fchmod(file.fileno(), path.stat().st_mode)
        file.writelines(pieces)


def _pass_on(name: str, pieces: Iterable[bytes]) -> None:
    """Write to standard output, a device or a pipe once all pieces are made: until then they wait in a file."""
    with SpooledTemporaryFile(MOST_HELD) as held:
        held.writelines(pieces)
        held.seek(0)
        if name == STANDARD:
            while data := held.read(AT_ONCE):
                write_out(data)
            return
        with named(name), open(name, "wb") as file:
            copyfileobj(held, file, AT_ONCE)


def write_out(data: bytes) -> None:
    """Write to standard output; where nobody reads it any more, end quietly as other programs do."""
    try:
        sys.stdout.buffer.write(data)
        sys.stdout.buffer.flush()
    except OSError as error:
        os.dup2(os.open(os.devnull, os.O_WRONLY), sys.stdout.fileno())  # so that nothing is tried again at the end
        if isinstance(error, BrokenPipeError):
            sys.exit(SHELL_SIGNAL + signal.SIGPIPE)
        raise OSError(error.errno, error.strerror, "standard output") from error
