"""The run's number: a file of the output folder that says which run may write there now. A worker tests it, and holds
it, while it gives its outputs their names; so a worker that has outlived its run can't write over a newer one's.
"""

from __future__ import annotations

import fcntl
import os
import secrets
from collections.abc import Iterator
from contextlib import contextmanager
from pathlib import Path
from time import monotonic, sleep

from ..files import named
from .places import LOCK, MARK

NUMBER_BYTES = 16
MOST_SECONDS = 20.0  # that workers of an earlier run may take to give a file's outputs their names
STEP_SECONDS = 0.02


class Held(Exception):
    """Somebody holds the number and does not let go."""


class Outlived(Exception):
    """The run of this number is over."""


def begin(output: Path) -> str:
    """Make a number for a new run of an output folder; no other may write there from now on.

    Raises
    ------
    Held
        If a worker of an earlier run is at writing, and stays so.
    OSError
        If the number can't be written.
    """
    number = secrets.token_hex(NUMBER_BYTES)
    _put(output, number)
    return number


def end(output: Path) -> None:
    """Let nobody write to an output folder any more, until the next run."""
    _put(output, "")


@contextmanager
def held(output: Path, number: str) -> Iterator[None]:
    """Hold a run's number, so that no other run begins meanwhile.

    Raises
    ------
    Outlived
        If it is not the number of the run that may write now.

    Examples
    --------
    >>> import tempfile
    >>> folder = Path(tempfile.mkdtemp())
    >>> one = begin(folder)
    >>> with held(folder, one):
    ...     pass
    >>> other = begin(folder)
    >>> with held(folder, one):
    ...     pass
    Traceback (most recent call last):
    ...
    walzhik.bank.lock.Outlived
    """
    try:
        handle = os.open(f"{output}/{LOCK}", os.O_RDONLY | os.O_CLOEXEC)
    except FileNotFoundError as error:
        raise Outlived from error
    try:
        fcntl.flock(handle, fcntl.LOCK_SH)
        if os.read(handle, len(MARK) + 2 * NUMBER_BYTES) != MARK + number.encode("ascii"):
            raise Outlived
        yield
    finally:
        os.close(handle)


def _put(output: Path, number: str) -> None:
    """Write a number when nobody holds one."""
    with named(output / LOCK):
        handle = os.open(output / LOCK, os.O_RDWR | os.O_CREAT | os.O_CLOEXEC, 0o666)
        try:
            _lock(handle)
            os.pwrite(handle, MARK + number.encode("ascii").ljust(2 * NUMBER_BYTES) + b"\n", 0)
        finally:
            os.close(handle)


def _lock(handle: int) -> None:
    begun = monotonic()
    while True:
        try:
            fcntl.flock(handle, fcntl.LOCK_EX | fcntl.LOCK_NB)
            return
        except BlockingIOError:
            if monotonic() - begun > MOST_SECONDS:
                raise Held from None
            sleep(STEP_SECONDS)
