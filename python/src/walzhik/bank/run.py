"""A run over a data bank: inputs to tasks, tasks to workers, what they come to to the journal, and the report at the
end. An interrupt lets the workers end what they have; whatever ends a run, the next one goes on from there.
"""

from __future__ import annotations

import signal
import threading
from collections.abc import Callable, Iterator, Sequence
from contextlib import contextmanager
from pathlib import Path
from time import monotonic
from typing import Literal, NamedTuple

from ..failures import Failure, Unusable
from ..files import sweep
from .finish import reported
from .inputs import Input, found, stem
from .manifest import Manifest
from .options import Options, version
from .outputs import Halt, put
from .page import ask_for_jinja, template
from .progress import Progress
from .reading import Damaged, Unsteady, read
from .records import Record
from .report import Summary, counted
from .task import Reply, Task, is_done
from .workers import Workers

BROKEN_OFF = 3  # exit status
TURN_SECONDS = 0.5  # how long a reply is waited for before interrupts are looked at
GRACE_SECONDS = 10  # that workers have after an interrupt to end what they are at
MOST_SENT_BYTES = 16 * 2**20  # of one input
TOO_LARGE = f"It has more than {MOST_SENT_BYTES // 2**20} MiB, and is not sent. Do it where the machines share files."


class Broken(Failure):
    """A run ends before all is done: exit status 3."""

    def __init__(self, message: str) -> None:
        super().__init__(message, BROKEN_OFF)


class Asked(NamedTuple):
    """What a run is asked for.

    Attributes
    ----------
    given : sequence of str
        Folders, files and lists, as `walzhik.bank.inputs.found` takes them.
    output : Path
    options : Options
    sends : {"nothing", "digests", "contents"}
        What goes to the workers beside the paths: nothing to those of this machine, a digest of each input where they
        share files with it, and its contents where they don't.
    is_pruned, is_quiet : bool
    """

    given: Sequence[str]
    output: Path
    options: Options
    sends: Literal["nothing", "digests", "contents"] = "nothing"
    is_pruned: bool = False
    is_quiet: bool = False


class Interrupt:
    """Whether an interrupt was asked for, and when."""

    def __init__(self) -> None:
        self.is_asked = False
        self.moment = 0.0

    def is_over(self) -> bool:
        """Whether the time is over that workers have to end what they are at."""
        return self.is_asked and monotonic() - self.moment > GRACE_SECONDS


@contextmanager
def interruptible() -> Iterator[Interrupt]:
    """Let the first interrupt or termination only be noted; a second one ends the run at once."""
    interrupt = Interrupt()
    if threading.current_thread() is not threading.main_thread():
        yield interrupt
        return

    def note(number: int, frame: object) -> None:
        if interrupt.is_asked:
            raise KeyboardInterrupt
        interrupt.is_asked, interrupt.moment = True, monotonic()

    before = {number: signal.signal(number, note) for number in (signal.SIGINT, signal.SIGTERM)}
    try:
        yield interrupt
    finally:
        for number, handler in before.items():
            signal.signal(number, handler)


def run(asked: Asked, workers: Callable[[Task, Callable[[str], None]], Workers]) -> Summary:
    """Do a whole data bank.

    Parameters
    ----------
    asked : Asked
    workers : callable
        Makes the workers; it is given a small task, and what takes words about them.

    Raises
    ------
    Unusable
        If nothing can be done.
    Broken
        If the run ends before all is done; the message says why and what is missing.
    """
    ask_for_jinja()  # so that no run is done in vain
    with interruptible() as interrupt:
        inputs, notes = found(asked.given, str(asked.output))
        if not inputs:
            raise Unusable(" ".join([*notes, "There is no file that ends in .rwl, .fh, .rwl.gz or .fh.gz."]))
        progress = Progress(len(inputs), asked.is_quiet)
        manifest = Manifest(asked.output)
        try:
            for note in notes:
                progress.say(note)
            sweep(asked.output)
            made = Run(asked, inputs, manifest, progress, interrupt)
            made.do_all(workers)
            return reported(inputs, manifest, asked.options, asked.given, progress, asked.is_pruned)
        except OSError as error:
            where = error.filename or asked.output
            raise Broken(f"{where}: {error.strerror or error}. {left(progress)}") from error
        except Halt as error:
            raise Broken(f"{error} {left(progress)}") from error
        except KeyboardInterrupt:
            raise Broken(f"Stopped at once. {left(progress)}") from None
        finally:
            progress.close()
            manifest.close()


def left(progress: Progress) -> str:
    """How far a run came, and how to go on."""
    return f"{progress.done:,} of {progress.total:,} files are done; the same command goes on from there."


class Run:
    """The inputs of a run on their way to the journal."""

    def __init__(
        self, asked: Asked, inputs: Sequence[Input], manifest: Manifest, progress: Progress, interrupt: Interrupt
    ) -> None:
        self._asked, self._manifest, self._progress, self._interrupt = asked, manifest, progress, interrupt
        self._inputs = inputs
        self._output = manifest.output.absolute()

    def do_all(self, workers: Callable[[Task, Callable[[str], None]], Workers]) -> None:
        """Have every input done, and its record in the journal."""
        taken = sorted((each for each in self._inputs if not each.complaint), key=lambda each: -each.size)
        stems = {stem(each.path) for each in taken}
        for each in self._inputs:
            if each.complaint:
                self._note(Reply.of(Record(each.path, refusal=each.complaint)), stem(each.path) not in stems)
        probe = self._probe(taken)
        if probe is None:  # there is none, or none can be read
            for each in taken:
                self._note(self._refused(each))
            return
        made = workers(probe, self._progress.warn)
        is_whole = False
        try:
            self._hand_out(taken, made)
            is_whole = not (made.killed or made.is_busy())
        finally:
            made.close()
            if not is_whole:  # who ended a task has left nothing
                sweep(self._output)
        if made.killed:
            whose = "was lost; what it" if made.killed == 1 else "were lost; what they"
            self._progress.say(f"{counted(made.killed, 'worker')} {whose} had was done again.")
        if self._interrupt.is_asked:
            raise Broken(f"Interrupted. {left(self._progress)}")

    def _hand_out(self, taken: Sequence[Input], workers: Workers) -> None:
        """Give tasks while there is room for them, largest first, and note what they come to; after an interrupt none is
        given any more."""
        for each in taken:
            while not workers.has_room() and not self._interrupt.is_asked:
                template()  # compiled, the first time, while the workers work
                self._receive(workers)
            if self._interrupt.is_asked:
                break
            prepared = self._prepared(each)
            if isinstance(prepared, Reply):
                self._note(prepared)
            else:
                workers.give(prepared)
        while workers.is_busy() and not self._interrupt.is_over():
            self._receive(workers)

    def _receive(self, workers: Workers) -> None:
        reply = workers.take(TURN_SECONDS)
        if reply is not None:
            self._note(reply)

    def _note(self, reply: Reply, is_owner: bool = True) -> None:
        """Put what a file came to into the journal. A refused file has no outputs then, whoever refused it, unless they
        are another's."""
        before = self._manifest.line_of(reply.path)
        if reply.line == before:
            self._progress.kept += reply.is_read
        else:
            if is_owner and (reply.is_refused or self._asked.sends == "contents"):
                reply = Reply.of(put(Record.read(reply.line), reply.outputs, self._output, self._manifest.number))
            self._progress.cleared += bool(reply.is_refused and before and Record.read(before).outputs)
            self._manifest.add(reply.path, reply.line)
        self._progress.advance()

    def _task(self, each: Input) -> Task:
        before = self._manifest.line_of(each.path).decode("ascii")
        return Task(each, str(self._output), self._asked.options, version(), self._manifest.number, before)

    def _probe(self, taken: Sequence[Input]) -> Task | None:
        """A small task that workers are asked about before they are given any."""
        for each in reversed(taken):
            task = self._task(each)
            if self._asked.sends == "contents":
                return task._replace(data=b"")
            if self._asked.sends == "nothing":
                return task
            try:
                return task._replace(digest=read(each.source).digest)
            except (Unsteady, Damaged):
                continue
        return None

    def _refused(self, each: Input) -> Reply:
        """What a file comes to that can't be read here."""
        prepared = self._prepared(each)
        assert isinstance(prepared, Reply)
        return prepared

    def _prepared(self, each: Input) -> Task | Reply:
        """A task with what is sent, or what the file came to already."""
        task = self._task(each)
        if self._asked.sends == "nothing":
            return task
        try:
            content = read(each.source)
        except (Unsteady, Damaged) as error:
            return Reply.of(Record(each.path, refusal=str(error)))
        if self._asked.sends == "digests":
            return task._replace(digest=content.digest)
        if len(content.data) > MOST_SENT_BYTES:
            return Reply.of(Record(each.path, refusal=TOO_LARGE))
        before = Record.read(task.before.encode("ascii")) if task.before else Record(each.path)
        now = Record(each.path, content.digest, task.options.key(), task.version)
        if is_done(before, now, self._output):
            return Reply.of(before)
        return task._replace(before="", digest=content.digest, data=content.data)
