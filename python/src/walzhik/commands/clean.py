"""The command `clean`: a laboratory's Tucson files in the strict form, with every note told."""

from __future__ import annotations

from typing import Any

import click

from ..files import write_whole
from ._outputs import format_option, keep_inputs, written_format
from ._tucson_files import (
    cleaned,
    from_option,
    front_options,
    other_options,
    quiet_option,
    reading_asked,
    refuse_shared_names,
)

FORMATS = ("rwl",)


@click.command()
@click.argument("files", nargs=-1, required=True, metavar="FILE.rwl...")
@format_option(FORMATS)
@click.option("-o", "--output", default="-", metavar="STRICT.rwl", help="Where to write; standard output without it.")
@from_option
@front_options
@other_options
@quiet_option
def command(files: tuple[str, ...], written: str | None, output: str, **asked: Any) -> None:
    """Bring Tucson files into the strict form that the proved reader takes; - is standard input. Heidelberg files (.fh) and
    tables (.csv, .tsv) are taken as well.

    A line is taken as an editor shows it, and must then stand in the strict columns: nothing moves a digit to another column, and
    nothing is put in. Left out or changed are line ends of Windows, a byte order mark, Ctrl-Z at the end, tabs (as blanks), trailing
    blanks, blank lines, a site name behind ten fields, the data bank's three header lines or those that --header names, and what is
    not ASCII in a name (to ?). Each is told on standard error with its line, and so is what a date may hang on. Anything else is refused,
    with what is shown there and what to do: missing years, a year that runs into the name, a closing whose unit nobody knows.

    This is proved: every name, year and width that is read stands in the file in the columns in which it is shown, and every line
    that is left out is told. Several files become one.

    \b
    ./walzhik clean oak_from_windows.rwl -o oak.rwl
    ./walzhik clean old.rwl --hundredths --header 2 -o strict.rwl

    Exit status: 0 done, 1 refused, 2 wrong usage, or a file can't be read or written.
    """
    keep_inputs(output, files)
    written_format(output, written, FORMATS)
    reading = reading_asked(strict=False, **asked)
    texts = [cleaned(name, reading, is_full=True) for name in files]
    refuse_shared_names([(name, series) for name, (_, series) in zip(files, texts)])
    write_whole(output, b"".join(text for text, _ in texts))
