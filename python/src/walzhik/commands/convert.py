"""The command `convert`: measured widths from one form into another, through the engine's proved writer and reader."""

from __future__ import annotations

from typing import Any

import click

from ..failures import Unusable, telling
from ..files import STANDARD, write_whole
from ..formats import FORM_ENDINGS, FORMS, Form, ending
from ..widths import Asked, text_of
from ._numbers import WHOLE
from ._outputs import keep_inputs
from ._series import reading_options
from ._tucson_files import cleaned, reading_asked

TAB = "tsv"


def written_form(output: str, said: str | None) -> Form:
    """The form to write: as --to says, else by the output's ending.

    Raises
    ------
    Unusable
        If neither tells.
    """
    found = FORM_ENDINGS.get(said or ending(output))
    if found is None:
        named = "standard output" if output == STANDARD else output
        raise Unusable(f"{named}: widths are written as .rwl, .fh, .csv or .tsv. --to says which.")
    return found


@click.command()
@click.argument("source", metavar="IN")
@click.argument("output", metavar="OUT")
@reading_options
@click.option("--to", "to", type=click.Choice([*FORMS, TAB]), help="What OUT is; else by its ending.")
@click.option("--first", type=WHOLE, metavar="YEAR", help="The first year of Heidelberg series without a DateBegin.")
def command(source: str, output: str, to: str | None, **asked: Any) -> None:
    """Bring measured widths into another form: Tucson (rwl), Heidelberg (fh) or a table (csv, tsv).

    IN is read as --from says, else by its ending, else by its content; OUT is written as --to says, else by its ending. - is standard
    input or output. A Heidelberg file has blocks HEADER: and DATA:Tree or DATA:Single. A table has a header with the names, the year
    in its first column, a row a year, and widths in millimetres unless --unit says otherwise; empty cells before and after a series.

    What is read is written and read back by the engine, which is proved, before it is used; the fronts for Heidelberg files and tables
    are tested, not proved. What they can't place they refuse, with the line and what to do. What they changed or left out is told on
    standard error.

    \b
    ./walzhik convert oak.fh oak.rwl
    ./walzhik convert examples/tucson/oak.rwl oak.csv

    Exit status: 0 done, 1 refused, 2 wrong usage, or a file can't be read or written.
    """
    keep_inputs(output, [source])
    form = written_form(output, to)
    reading = reading_asked(**asked)
    if reading.asked != Asked() and (reading.form or FORM_ENDINGS.get(ending(source))) == "tucson":
        raise Unusable(f"{source} is a Tucson file: --unit, --year-zero, --rename, --round and --first are for others.")
    _, series = cleaned(source, reading)
    with telling(source):
        made = text_of(series, form, "\t" if (to or ending(output)) == TAB else ",")
    write_whole(output, made)
