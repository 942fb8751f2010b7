"""One file of a data bank from its bytes to its outputs. The same function runs in a worker of this machine and in one
of a cluster; it holds one file at a time.
"""

from __future__ import annotations

import socket
from functools import lru_cache
from pathlib import Path
from time import perf_counter
from typing import NamedTuple

from ..failures import Failure
from ..threads import ONE_THREAD, is_one_thread
from . import lock
from .inputs import Input, shown
from .options import Options, version
from .outputs import Halt, are_as_left, put
from .reading import Content, Damaged, Unsteady, digest_of, read, unpacked
from .records import Record
from .work import number_of, worked_out


class WrongCopy(Exception):
    """This machine has another file under the input's path; the message names both."""


class Fault(Exception):
    """A worker fails in a way that it should not; the message says how."""


class Task(NamedTuple):
    """A file to do.

    Attributes
    ----------
    input : Input
    output : str
        The output folder from the root.
    options : Options
    version : str
        What every worker must be.
    number : str
        The run's, as the output folder's lock has it.
    before : str
        The record of an earlier run, or an empty text.
    digest : str
        Of the input's bytes as the command sees them; empty where the worker is of the same machine.
    data : bytes or None
        The input's bytes, where they are sent; the outputs are sent back then, and the worker writes nothing.
    """

    input: Input
    output: str
    options: Options
    version: str
    number: str
    before: str = ""
    digest: str = ""
    data: bytes | None = None


class Reply(NamedTuple):
    """What a task came to.

    Attributes
    ----------
    path : str
        The input's, as its record has it.
    line : bytes
        The record.
    is_refused, is_read : bool
        Whether nothing of the file was worked out, and whether its bytes could be had.
    outputs : dict
        The bytes of each output by its path, where they are sent back.
    """

    path: str
    line: bytes
    is_refused: bool
    is_read: bool
    outputs: dict[str, bytes] = {}

    @classmethod
    def of(cls, record: Record, outputs: dict[str, bytes] = {}) -> Reply:
        """The reply of a record: what is asked of it at once, beside its line."""
        return cls(record.path, record.line(), bool(record.refusal), bool(record.digest), outputs)


def run(task: Task) -> Reply:
    """Do a file, or find that it is done, and say what it came to.

    Raises
    ------
    Halt
        If this worker can't do any file, or nothing can be written.
    WrongCopy
        If this machine has another file there.
    """
    begun = perf_counter()
    ask_worker(task)
    before = Record.read(task.before.encode("ascii")) if task.before else Record(task.input.path)
    output, outputs = Path(task.output), dict[str, bytes]()
    try:
        content = content_of(task)
        record = Record(task.input.path, content.digest, task.options.key(), task.version)
        if task.data is None and is_done(before, record, output):
            return Reply.of(before)
        record, outputs = settled(record, task, content.data)
    except (Unsteady, Damaged) as error:
        record = Record(task.input.path, refusal=str(error))
    except (Halt, WrongCopy):
        raise
    except Exception as error:
        fault = f"A fault of the program itself, {type(error).__name__}: {error}."
        record = Record(task.input.path, refusal=f"{fault} Please send the file to the maintainers.")
    if task.data is None:
        record = put(record, outputs, output, task.number)
        outputs = {}
    return Reply.of(record._replace(seconds=perf_counter() - begun), outputs)


def run_apart(task: Task) -> Reply:
    """As `run`, on a worker of a cluster: what it fails with otherwise comes back as a plain Fault, because Dask loses an
    error that it can't send, and with it the task."""
    try:
        return run(task)
    except (Halt, WrongCopy):
        raise
    except Exception as error:
        words = f"{type(error).__name__}: {error}"
    raise Fault(words)  # apart from the error, which has all that led to it


def content_of(task: Task) -> Content:
    """The bytes of a task's input: those that were sent, or those of the file, which must be the one that was meant."""
    if task.data is not None:
        return Content(task.data, digest_of(task.data))
    try:
        content = read(task.input.source)
    except OSError as error:
        raise Halt(f"{shown(task.input.source)} can't be read: {error.strerror or error}.") from error
    if task.digest and content.digest != task.digest:
        raise WrongCopy(
            f"Machine {socket.gethostname()} has another file at {shown(task.input.source)} than the machine that runs "
            "the command."
        )
    return content


def is_done(before: Record, now: Record, output: Path) -> bool:
    """Whether an earlier run did the same, and its outputs are as it left them."""
    return before[:4] == now[:4] and are_as_left(before.outputs, output, now.path)


def settled(record: Record, task: Task, data: bytes) -> tuple[Record, dict[str, bytes]]:
    """The record of a file with its outputs, or with the refusal of all of it."""
    try:
        return worked_out(record, task.options, unpacked(task.input.source, data))
    except Damaged as error:
        return record._replace(refusal=str(error)), {}
    except Failure as failure:
        return record._replace(refusal=failure.message, number=number_of(failure)), {}


def ask_worker(task: Task) -> None:
    """Whether this worker gives the outputs that any other gives, and puts them where they belong.

    Raises
    ------
    Halt
        If it does not.
    """
    if version() != task.version:
        raise Halt(
            "A worker has another version of Walzhik, its engine, NumPy or SciPy than this command. Give all machines "
            "the same ones, and start the workers again."
        )
    if not is_one_thread():
        told_so = " ".join(f"{name}={number}" for name, number in ONE_THREAD.items())
        raise Halt(f"A worker's numerical libraries may use several threads. Start it with {told_so}.")
    if task.data is None:
        see_output(task.output, task.number)


@lru_cache(maxsize=1)
def see_output(output: str, number: str) -> None:
    """Whether this worker sees the output folder of a run: asked once, since the run's number is held again whenever outputs
    get their names.

    Raises
    ------
    Halt
        If it does not.
    """
    try:
        with lock.held(Path(output), number):
            pass
    except (OSError, lock.Outlived):
        raise Halt(
            f"A worker does not see the output folder {shown(output)} of this command. Every machine must have "
            "it, and the inputs, under the same path; --ship sends the files instead."
        ) from None


def seen(task: Task) -> str:
    """Why this worker can't do a task, in words; an empty text if it can.

    A worker of a cluster is asked before it is given anything, so that one that is not set up says so once, not for
    every file.
    """
    try:
        ask_worker(task)
        content_of(task)
    except (Halt, WrongCopy) as error:
        return str(error)
    except (Unsteady, Damaged) as error:
        return f"{shown(task.input.source)} on machine {socket.gethostname()}: {error}"
    return ""
