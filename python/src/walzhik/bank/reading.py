"""The bytes of one input: read whole, unpacked where it is packed, and refused where it is damaged, too large, or
changes while it is read. Apart because every way of spoiling a file is met here and nowhere else.
"""

from __future__ import annotations

import errno
import gzip
import io
import os
import stat
import zlib
from hashlib import sha256
from typing import NamedTuple

from .inputs import GZIP

MOST_BYTES = 64 * 2**20  # of a file, and of what it unpacks to: some ten million rings
SAID = f"{MOST_BYTES // 2**20} MiB"
OF_THE_MACHINE = (errno.EMFILE, errno.ENFILE, errno.ENOMEM)  # not of the file


class Damaged(Exception):
    """The file's bytes are refused, and will be again; the message says why and what to do."""


class Unsteady(Exception):
    """The file can't be read as it is now; another time it may be."""


class Content(NamedTuple):
    """What a file holds.

    Attributes
    ----------
    data : bytes
        As it is on the disk.
    digest : str
        SHA-256 of that.
    """

    data: bytes
    digest: str


def digest_of(data: bytes) -> str:
    """SHA-256, as records and tasks have it."""
    return sha256(data).hexdigest()


def read(source: str) -> Content:
    """All of a file.

    Raises
    ------
    Damaged
        If it is too large.
    Unsteady
        If it has changed meanwhile, or can't be read.
    OSError
        If this machine can't read any file now, as with too many of them open.
    """
    try:
        handle = os.open(source, os.O_RDONLY | os.O_NONBLOCK)  # so that a pipe with no writer can't hold us
        with os.fdopen(handle, "rb") as file:
            before = os.fstat(handle)
            if not stat.S_ISREG(before.st_mode):
                raise Unsteady("It is no plain file.")
            raw = _all_of(file)
            steady = state(before) == state(os.fstat(handle)) == state(os.stat(source))
    except OSError as error:
        if error.errno in OF_THE_MACHINE:
            raise
        raise Unsteady(f"It can't be read: {error.strerror or error}.") from error
    if not steady or len(raw) != before.st_size:
        raise Unsteady("It changed while it was read. Run again when nothing writes to it.")
    return Content(raw, digest_of(raw))


def state(found: os.stat_result) -> tuple[int, ...]:
    """What changes when a file is written to or another takes its name."""
    return found.st_dev, found.st_ino, found.st_size, found.st_mtime_ns, found.st_ctime_ns


def _all_of(file: io.BufferedReader) -> bytes:
    """All bytes of a file, and one more where it grows meanwhile: room is made for so many, not for the most."""
    raw = file.read(min(os.fstat(file.fileno()).st_size, MOST_BYTES) + 1)
    if len(raw) > MOST_BYTES:
        raise Damaged(f"It has more than {SAID}. Split it.")
    return raw


def unpacked(source: str, raw: bytes) -> bytes:
    """The text of a file by its ending.

    Raises
    ------
    Damaged
        If it is packed and can't be unpacked, or is too large then.

    Examples
    --------
    >>> unpacked("a.rwl.gz", gzip.compress(b"FEW")), unpacked("a.rwl", b"FEW")
    (b'FEW', b'FEW')
    >>> unpacked("a.rwl.gz", gzip.compress(b"FEW")[:-3])
    Traceback (most recent call last):
    ...
    walzhik.bank.reading.Damaged: It ends too early to be unpacked. Get the file again.
    """
    if not source.lower().endswith(GZIP):
        return raw
    try:
        if not raw:  # which the library takes for an empty text
            raise EOFError
        with gzip.GzipFile(fileobj=io.BytesIO(raw)) as file:
            text = file.read(MOST_BYTES + 1)
    except EOFError as error:
        raise Damaged("It ends too early to be unpacked. Get the file again.") from error
    except (OSError, zlib.error) as error:
        raise Damaged(f"It can't be unpacked: {error}. Get the file again.") from error
    if len(text) > MOST_BYTES:
        raise Damaged(f"It has more than {SAID} when it is unpacked. Split it.")
    return text
