"""What every command asks of the file that it writes, before it reads anything."""

from __future__ import annotations

from collections.abc import Callable, Iterable, Sequence
from typing import Any, TypeVar

import click

from ..failures import Unusable
from ..files import STANDARD, same_as
from ..formats import UnknownEnding, format_of

Decorated = TypeVar("Decorated", bound=Callable[..., Any])


def format_option(formats: Sequence[str]) -> Callable[[Decorated], Decorated]:
    """The option --format, for `written_format`."""
    words = f"Write {' or '.join(formats)}, whatever the ending of the output's name."
    return click.option("--format", "written", type=click.Choice(formats, case_sensitive=False), help=words)


def written_format(output: str, chosen: str | None, formats: Sequence[str]) -> str:
    """The format to write, by --format or by the output's ending; the first one without an ending.

    Raises
    ------
    Unusable
        If no format has the ending.
    """
    try:
        return format_of(output, chosen, formats)
    except UnknownEnding as error:
        raise Unusable(str(error)) from error


def keep_inputs(output: str, inputs: Iterable[str | None]) -> None:
    """Refuse an output that is one of the inputs, which it would destroy.

    Raises
    ------
    Unusable
        If it is one, by whatever name or link.
    """
    given = same_as(output, [name for name in inputs if name is not None])
    if given is None:
        return
    shown = "standard output" if output == STANDARD else output
    read = "standard input" if given == STANDARD else given
    same = "" if shown == read else f" is the same file as {read}, which"
    raise Unusable(f"{shown}{same} is read here: it would be destroyed. Give the output another name.")
