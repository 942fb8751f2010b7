"""The command `fit`: a sheet from measured widths, or one for each series."""

from __future__ import annotations

from typing import Any

import click

from ..choosing import listed, named
from ..counting import Counting
from ..failures import REFUSED, Unusable
from ..files import STANDARD, write_whole
from ..fit import Shape
from ..fit_series import Asked, described, fitted_series, template_over
from ..sheet import Sheet
from ..tucson import Series
from ._fits import (
    asked_of,
    fitted_all,
    is_folder,
    keep_from_sheets,
    say_fits,
    say_space,
    say_templates,
    shape_options,
    write_sheets,
)
from ._lists import WholeNumbers, space_of
from ._numbers import counting_of, counting_options
from ._outputs import format_option, keep_inputs, written_format
from ._series import read_series, reading_options

NUMBERS = WholeNumbers()
FORMATS = ("sheet",)


def chosen_series(series: list[Series], name: str | None, earlywood: str | None, latewood: str | None) -> list[Series]:
    """One series for both sides of the pairs, or two."""
    if (earlywood is None) != (latewood is None) or (earlywood is not None and name is not None):
        raise Unusable("Give --series, or --earlywood and --latewood together.")
    if earlywood is not None and latewood is not None:
        return [named(series, earlywood), named(series, latewood)]
    if name is not None:
        return [named(series, name)]
    if len(series) != 1:
        raise Unusable(
            f"Name the series, with --series, or with --earlywood and --latewood: there are {listed(series) or 'none'}. "
            "-o FOLDER/ fits each to a sheet of its own."
        )
    return series


@click.command()
@click.argument("files", nargs=-1, required=True, metavar="FILE...")
@click.option(
    "--series", "name", metavar="NAME", help="The series to fit; both sides of each pair get its coefficient."
)
@click.option("--earlywood", metavar="NAME", help="The series of the earlywood; with --latewood.")
@click.option("--latewood", metavar="NAME", help="The series of the latewood; with --earlywood.")
@click.option(
    "--breaks",
    type=NUMBERS,
    help="Breakpoints in rings, as 1703,1715,1748. Without them a template is taken and printed.",
)
@click.option("--degrees", type=NUMBERS, help="The degree of each stretch, as 3,2.")
@click.option("--orders", type=NUMBERS, help="The order of each join, as 1; -1 is a scar.")
@shape_options
@counting_options
@reading_options
@format_option(FORMATS)
@click.option(
    "-o",
    "--output",
    default=STANDARD,
    metavar="SHEET",
    help="The sheet to write; standard output without it. FOLDER/ gets a sheet for each series.",
)
def command(
    files: tuple[str, ...],
    name: str | None,
    earlywood: str | None,
    latewood: str | None,
    breaks: list[int] | None,
    degrees: list[int] | None,
    orders: list[int] | None,
    shape: Shape | None,
    scars: tuple[int, ...],
    first: int | None,
    each_first: int | None,
    written: str | None,
    output: str,
    **reading: Any,
) -> int:
    """Fit a curve to measured widths, and write its sheet.

    Least squares over the exact weights, of deviations relative to the curve, every coefficient at least a thousandth of a
    millimetre, rounded to whole thousandths. The coefficients do not rise, unless one hump is better by the test that the
    manual states; --shape says otherwise, and free is plain least squares. Absent rings are left out. A fit is a choice,
    and is not proved; that a falling list of coefficients gives a curve that never rises is. FILE is a Tucson file, - for
    standard input.

    Rings are years, unless --first RING says which ring the first width of the earliest series is, or --each-first RING
    which ring each series' own first width is. Without breakpoints a template is taken, by the number of rings. Where many
    rings together lie on one side of the curve, a scar is hinted at: --scar RING sets it.

    With -o FOLDER/ each series is fitted to a sheet of its own there, by its own template. A series that can't be fitted
    is told, the rest goes on, and the status is 1.

    \b
    ./walzhik fit examples/tucson/oak.rwl --series ROOF04E -o roof.sheet
    ./walzhik fit examples/tucson/pine.rwl -o sheets/
    ./walzhik fit examples/tucson/oak.rwl --earlywood ROOF04E --latewood ROOF04L
                  --breaks 1703,1715,1748,1802 --degrees 3,2,2 --orders 1,-1 -o roof.sheet
    """
    keep_inputs(output, files)
    counting, asked = counting_of(first, each_first), asked_of(space_of(breaks, degrees, orders), shape, scars)
    if is_folder(output):
        if earlywood is not None or latewood is not None:
            raise Unusable(f"{output} is a folder, which gets a sheet of the whole ring for each series: name a file.")
        found = read_series(files, **reading)
        chosen = found if name is None else [named(found, name)]
        keep_from_sheets(output, chosen, files)
        return to_folder(chosen, counting, asked, output)
    written_format(output, written, FORMATS)
    return to_sheet(chosen_series(read_series(files, **reading), name, earlywood, latewood), counting, asked, output)


def to_folder(chosen: list[Series], counting: Counting, asked: Asked, folder: str) -> int:
    """Fit each series to a sheet of its own."""
    if not chosen:
        raise Unusable("There are no series.")
    click.echo(counting.words(chosen), err=True)
    tried = fitted_all(chosen, counting.starts(chosen), asked)
    made = [each for each in tried if each is not None]
    if asked.space is None:
        say_templates(made)
    say_fits(made)
    write_sheets(folder, made)
    return 0 if len(made) == len(tried) else REFUSED


def to_sheet(chosen: list[Series], counting: Counting, asked: Asked, output: str) -> int:
    """Fit one series, or those of the two wood parts, to one sheet."""
    starts = counting.starts(chosen)
    space = asked.space
    if space is None:
        space = template_over(chosen, starts, asked.scars)
        say_space(space)
    click.echo(counting.words(chosen), err=True)
    fits = [
        described(series, fitted_series(series, space, start, asked.shape), asked)
        for series, start in zip(chosen, starts)
    ]
    say_fits(fits)
    pairs = list(zip(fits[0].fit.coefficients.tolist(), fits[-1].fit.coefficients.tolist()))
    lists = space.lists()
    write_whole(output, Sheet(lists.breaks, lists.degrees, lists.orders, pairs).text())
    return 0
