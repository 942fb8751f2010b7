"""How a command fails: the message on standard error and the exit status for each kind of error. A refusal ends with 1,
what can't be used or read with 2.
"""

from __future__ import annotations

from collections.abc import Iterator
from contextlib import contextmanager
from typing import IO, Any

import click

from ._engine import Unavailable
from .errors import Refused
from .sheet import NoPrintout
from .widths import Unreadable, Unwritable

REFUSED, UNUSABLE = 1, 2


class Failure(click.ClickException):
    """A message and an exit status."""

    def __init__(self, message: str, status: int) -> None:
        super().__init__(message)
        self.exit_code = status

    def show(self, file: IO[Any] | None = None) -> None:
        """Print the message as it is, on standard error."""
        click.echo(self.message, file=file, err=True)


class Refusal(Failure):
    """Something is refused: exit status 1."""

    def __init__(self, message: str) -> None:
        super().__init__(message, REFUSED)


class Unusable(Failure):
    """Wrong usage, or a file that can't be read: exit status 2."""

    def __init__(self, message: str) -> None:
        super().__init__(message, UNUSABLE)


def told(error: Exception, about: str = "") -> Failure | None:
    """The failure that an error is, or None where it is a fault of the program.

    Examples
    --------
    >>> print(told(Refused(4, 0, "Degree 6."), "a.sheet").message)
    a.sheet: refused, no=4,0. Degree 6.
    """
    head = f"{about}: " if about else ""
    if isinstance(error, Failure):
        return error
    if isinstance(error, Refused):
        words = f"{head}refused, no={error.number},{error.place}. {error.words}"
        return Refusal(f"{words} {error.remedy}".rstrip())
    if isinstance(error, (Unreadable, Unwritable)):
        return Refusal(f"{head}{error}")
    if isinstance(error, (Unavailable, NoPrintout)):
        return Unusable(f"{head}{error}")
    if isinstance(error, OSError):
        return Unusable(": ".join(str(each) for each in (error.filename or about, error.strerror or error) if each))
    return None


@contextmanager
def telling(about: str) -> Iterator[None]:
    """Say of errors what they are about, as a file or a series."""
    try:
        yield
    except Exception as error:
        failure = told(error, about)
        if failure is None:
            raise
        raise failure from error
