"""The command `explain`: what the engine makes of a sheet, or what a Tucson file holds, in words."""

from __future__ import annotations

from typing import Any

import click

from .. import tucson
from ..errors import Refused
from ..explain import Explained, explain_sheet, explain_tidied, explain_tucson, refused_file, with_promises
from ..failures import Unusable, telling
from ..files import read_whole, write_out
from ..formats import KINDS, Kind, kind_of
from ._sheets import told_tidied
from ._tucson_files import (
    NO_SERIES,
    NO_SERIES_REMEDY,
    Reading,
    front_options,
    is_asked,
    other_options,
    quiet_option,
    reading_asked,
    strict_option,
    told_other,
    told_series,
)


def explained_sheet(name: str, text: bytes, is_strict: bool) -> Explained:
    """The words for a sheet, tidied unless it is to be strict, and what can be counted on."""
    if is_strict:
        made, words = text, explain_sheet(text)
    else:
        tidied = told_tidied(name, text)
        made, words = tidied.text, explain_tidied(tidied)
    return with_promises(words, made)


def explained(name: str, text: bytes, kind: Kind, reading: Reading) -> Explained:
    """The words for one file."""
    with telling(name):
        if kind == "sheet":
            return explained_sheet(name, text, reading.strict)
        form = reading._replace(form=kind).form_of(name, text)
        if form != "tucson":
            return explain_tucson(told_other(name, text, form, reading.asked)[0])
        return explained_tucson(name, text, reading)


def explained_tucson(name: str, text: bytes, reading: Reading) -> Explained:
    """The words for a Tucson file; one without a series is refused."""
    if not reading.strict:
        try:
            front = tucson.clean(text, reading.header, reading.unit)
        except Refused as error:
            return refused_file(error)
        told_series(name, front, reading, is_full=True)
        text = front.text
    return explain_tucson(text) if text else Explained(f"Refused.\n{NO_SERIES}\n{NO_SERIES_REMEDY}", False)


def whole_text(name: str) -> bytes:
    """The bytes of a file, which is named where it can't be read."""
    with telling(name):
        return read_whole(name)


def kind_said(said: str | None) -> Kind | None:
    """The kind that --from names; rwl is tucson."""
    kinds: dict[str, Kind] = {"sheet": "sheet", "tucson": "tucson", "rwl": "tucson", "fh": "fh", "csv": "csv"}
    return None if said is None else kinds[said]


@click.command()
@click.argument("files", nargs=-1, required=True, metavar="FILE...")
@click.option("--from", "said", type=click.Choice(KINDS), help="What every FILE is; else by its ending or content.")
@click.option("--tucson", is_flag=True, help="The same as --from tucson.")
@front_options
@strict_option
@other_options
@quiet_option
def command(
    files: tuple[str, ...],
    said: str | None,
    tucson: bool,
    **reading: Any,
) -> int:
    """Say in words what the engine makes of a sheet, or what a file of widths (.rwl, .fh, .csv, .tsv) holds.

    FILE is a sheet or a file of widths, - for standard input: as --from says, else by its ending, else by
    its content. A Tucson file is read as by the other commands: what was brought into the strict form is told on standard error, line by
    line; with --strict nothing is changed. An accepted sheet is followed by what you can count on by proof: how far a coefficient
    acts, how much a value moves.

    \b
    ./walzhik explain examples/refusals/refused_5.sheet
    Refused: no=5,0.
    Join 0, at ring 1, has order 1, but the stretch before it has degree 1: at most 0.

    Exit status: 0 accepted, 1 refused, 2 wrong usage, or a file can't be read.
    """
    how = reading_asked(**reading)
    if tucson and said not in (None, "tucson", "rwl"):
        raise Unusable(f"Give --from {said} or --tucson, not both.")
    all_accepted, asked = True, kind_said("tucson" if tucson else said)
    texts = [whole_text(name) for name in files]
    kinds = [asked or kind_of(name, text) for name, text in zip(files, texts)]
    if is_asked({**reading, "strict": False}) and set(kinds) == {"sheet"}:
        raise Unusable("An option says how files of widths are read, but none is given.")
    for name, text, kind in zip(files, texts, kinds):
        made = explained(name, text, kind, how)
        head = f"{name}:\n" if len(files) > 1 else ""
        write_out(f"{head}{made.words}\n".encode("ascii", "backslashreplace"))
        all_accepted = all_accepted and made.is_accepted
    return 0 if all_accepted else 1
