"""How every command reads a sheet: brought into the strict form, each change told on standard error, and then put to the
proved program."""

from __future__ import annotations

import click

from .. import sheet
from ..failures import telling
from ..files import read_whole
from ..sheet import Sheet
from ..sheet_front import Tidied, read_tidied, tidied


def told_tidied(name: str, text: bytes) -> Tidied:
    """A sheet's text in the strict form; each change is told on standard error."""
    made = tidied(text)
    for change in made.changes:
        click.echo(f"{name}: {change}", err=True)
    return made


def read_sheet(name: str, *, strict: bool = False) -> Sheet:
    """The lists of a sheet, ``-`` for standard input; with `strict` it is taken as it is."""
    with telling(name):
        text = read_whole(name)
        return sheet.read(text) if strict else read_tidied(told_tidied(name, text))
