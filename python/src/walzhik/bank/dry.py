"""What a run would do, without doing or writing any of it."""

from __future__ import annotations

from collections.abc import Iterator
from typing import NamedTuple

from ..failures import Unusable
from .inputs import Input, found, shown
from .manifest import Known
from .options import version
from .prune import kept, unnamed
from .reading import Damaged, Unsteady, read
from .records import Record
from .run import Asked
from .task import is_done


class Would(NamedTuple):
    """What a run would do with a path.

    Attributes
    ----------
    what : {"do", "done", "refuse", "gone", "prune"}
        Do it, find it done, refuse it, leave its outputs though it is not there, take an output away.
    path : str
    words : str
    """

    what: str
    path: str
    words: str = ""

    def line(self) -> str:
        """As it is printed.

        Examples
        --------
        >>> Would("refuse", "a.rwl", "It is no plain file.").line()
        'refuse  a.rwl: It is no plain file.'
        """
        return f"{self.what:7} {shown(self.path)}" + (f": {self.words}" if self.words else "")


def dry_run(asked: Asked) -> tuple[list[Would], list[str]]:
    """What a run would do, in order of path, and what is left out with good reason.

    Raises
    ------
    Unusable
        If it could do nothing.
    """
    inputs, notes = found(asked.given, str(asked.output))
    if not inputs:
        raise Unusable(" ".join([*notes, "There is no file that ends in .rwl, .fh, .rwl.gz or .fh.gz."]))
    try:
        known = Known(asked.output)
    except OSError as error:
        raise Unusable(f"The output folder can't be used. {error.filename}: {error.strerror}.") from error
    try:
        return [*(of_input(each, known, asked) for each in inputs), *of_others(inputs, known, asked)], notes
    finally:
        known.close()


def of_input(each: Input, known: Known, asked: Asked) -> Would:
    """What a run would do with an input."""
    if each.complaint:
        return Would("refuse", each.path, each.complaint)
    try:
        now = Record(each.path, read(each.source).digest, asked.options.key(), version())
    except (Unsteady, Damaged) as error:
        return Would("refuse", each.path, str(error))
    before = known.of(each.path)
    return Would("done" if before is not None and is_done(before, now, asked.output) else "do", each.path)


def of_others(inputs: list[Input], known: Known, asked: Asked) -> Iterator[Would]:
    """What a run would do with what is in the output folder of no input."""
    gone = list(kept(inputs, known, asked.is_pruned))
    for record in gone:
        yield Would("gone", record.path, "It is not there any more; its outputs stand.")
    if asked.is_pruned:
        here = [known.of(each.path) for each in inputs if not each.complaint]
        named = {path for record in [*gone, *here] if record is not None for path in record.outputs}
        for path in sorted(unnamed(asked.output, named, inputs)):
            yield Would("prune", path)
