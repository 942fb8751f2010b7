"""The command `indices`: each measured ring divided by a curve, as a table or a Tucson text."""

from __future__ import annotations

import os
from collections.abc import Iterable, Sequence
from typing import Any, NamedTuple

import click

from ..choosing import SHOWN_NAMES, Names, chosen_series, fitting, listed, named_by, wood_of
from ..curve import Curve, Wood
from ..dividing import Indexed, as_tucson, computed_words, divided, table_pieces
from ..failures import REFUSED, Unusable, telling
from ..files import STANDARD, write_pieces
from ..fit import Shape
from ..fit_series import Fitted
from ..tucson import Series
from ._fits import (
    asked_of,
    fitted_all,
    keep_from_sheets,
    say_fits,
    say_templates,
    shape_options,
    write_sheets,
)
from ._lists import WholeNumbers, space_of
from ._numbers import counting_of, counting_options
from ._outputs import format_option, keep_inputs, written_format
from ._series import read_series, reading_options, wood_options
from ._sheets import read_sheet

NUMBERS = WholeNumbers()
TUCSON = "rwl"
FORMATS = ("csv", TUCSON)


class Job(NamedTuple):
    """A series with the curve that divides it."""

    series: Series
    curve: Curve
    wood: Wood | None


def by_name(given: Sequence[str], series: Sequence[Series]) -> tuple[str | None, dict[str, str]]:
    """The one sheet of all series, or the sheets by series' names or patterns of them."""
    sheets: dict[str, str] = {}
    for each in given:
        pattern, equals, path = each.partition("=")
        if len(given) == 1 and (not equals or os.path.exists(each)):
            return each, {}
        if not equals:
            raise Unusable(
                f"--curve {each}: of several sheets each has the name of its series before it, as --curve NAME=SHEET."
            )
        for name in [found.name for found in fitting(series, pattern)]:
            if name in sheets:
                raise Unusable(f"--curve: series {name} has two sheets.")
            sheets[name] = path
    return None, sheets


def curves_of(given: Sequence[str], series: Sequence[Series], strict: bool) -> dict[str, tuple[str, Curve]]:
    """Where its sheet is, and the curve, of each series that has one."""
    one, sheets = by_name(given, series)
    paths = {each.name: one for each in series} if one is not None else sheets
    read: dict[str, Curve] = {}
    for path in paths.values():
        if path not in read:
            given_sheet = read_sheet(path, strict=strict)
            with telling(path):
                read[path] = given_sheet.curve()
    return {name: (path, read[path]) for name, path in paths.items()}


def jobs_by_sheets(series: list[Series], given: Sequence[str], names: Names, strict: bool) -> list[Job]:
    """Each chosen series with the curve of its sheet."""
    curves = curves_of(given, series, strict)
    chosen = chosen_series(series, names) if names.all() else [each for each in series if each.name in curves]
    jobs = []
    for each in chosen:
        if each.name not in curves:
            raise Unusable(f"Series {each.name} has no sheet: give it with --curve {each.name}=SHEET.")
        path, curve = curves[each.name]
        if len(chosen) > 1 and not names.all() and not curve.is_whole_ring:
            raise Unusable(
                f"{path} has a curve for each wood part: name the series of each, "
                "with --earlywood NAME and --latewood NAME. "
                f"There are {listed(series)}."
            )
        jobs.append(Job(each, curve, wood_of(each.name, names, path, curve)))
    return jobs


def by_fits(tried: Sequence[Fitted | None], sheets: str | None, is_template: bool) -> list[Indexed]:
    """The series that could be fitted, divided by their curves; what is said of them, and their sheets."""
    made = [each for each in tried if each is not None]
    if is_template and made:
        say_templates(made)
    if made:
        say_fits(made)
    if sheets is not None:
        write_sheets(sheets, made)
    return [Indexed(each.series, each.fit.divided) for each in made]


def warn_of_computed(taken: Iterable[Series]) -> None:
    """Tell of names that a spreadsheet would compute: the first of many."""
    told = [words for words in (computed_words(each.name) for each in taken) if words is not None]
    for words in told[:SHOWN_NAMES]:
        click.echo(words, err=True)
    if len(told) > SHOWN_NAMES:
        click.echo(f"The same holds for {len(told) - SHOWN_NAMES:,} series more.", err=True)


@click.command()
@click.argument("files", nargs=-1, required=True, metavar="FILE...")
@click.option(
    "--curve",
    "curves",
    multiple=True,
    metavar="SHEET",
    help="The sheet; NAME=SHEET, again and again, for each series its own.",
)
@click.option("--fit", "is_fit", is_flag=True, help="In place of --curve: fit each series by a curve of its own.")
@wood_options("A series to take, with a curve of the whole ring, or a pattern as 'DTR*'; may come again.")
@counting_options
@click.option(
    "--breaks",
    type=NUMBERS,
    help="With --fit: breakpoints in rings. Without them each series has a template of its own.",
)
@click.option("--degrees", type=NUMBERS, help="With --fit: the degree of each stretch.")
@click.option("--orders", type=NUMBERS, help="With --fit: the order of each join; -1 is a scar.")
@shape_options
@click.option("--sheets", metavar="FOLDER", help="With --fit: keep the sheet of each series there.")
@reading_options
@format_option(FORMATS)
@click.option(
    "-o", "--output", default=STANDARD, metavar="OUT", help="CSV, or a Tucson text where its name ends in .rwl."
)
def command(
    files: tuple[str, ...],
    curves: tuple[str, ...],
    is_fit: bool,
    series: tuple[str, ...],
    earlywood: tuple[str, ...],
    latewood: tuple[str, ...],
    first: int | None,
    each_first: int | None,
    breaks: list[int] | None,
    degrees: list[int] | None,
    orders: list[int] | None,
    shape: Shape | None,
    scars: tuple[int, ...],
    sheets: str | None,
    written: str | None,
    output: str,
    **reading: Any,
) -> int:
    """Divide each measured ring by a curve.

    The curve is a sheet's, or is fitted to each series by itself with --fit, as `fit` does it; a series that can't be
    fitted is told, the rest goes on, and the status is 1. A sheet whose pairs all have two equal
    sides is a curve of the whole ring: all series are taken, or those named by --series. Of any other sheet the series
    of a wood part must be named.

    Rings are years: a ring outside the curve's breakpoints is refused, never guessed. --first RING says which ring the
    first width of the earliest series is, the others keep their distance in years. Where the curve counts rings from the
    pith, --each-first RING says which ring each series' own first width is.

    The table has a line a ring, series,year,width_mm,curve_mm,index; the index, in thousandths, is the engine's, and
    empty for an absent ring. In a Tucson text (-o OUT.rwl) an absent ring is 0. FILE is a Tucson file, - for standard
    input.

    \b
    ./walzhik indices examples/tucson/oak.rwl --curve examples/sheets/roof.sheet
                      --earlywood ROOF04E --latewood ROOF04L -o roof.csv
    ./walzhik indices examples/tucson/oak.rwl --fit -o roof.rwl
    """
    space = space_of(breaks, degrees, orders)
    if bool(curves) == is_fit:
        raise Unusable("Give the curve: either --curve SHEET or --fit.")
    if space is not None and not is_fit:
        raise Unusable("--breaks, --degrees and --orders go with --fit: a sheet has its own.")
    if sheets is not None and not is_fit:
        raise Unusable("--sheets goes with --fit: the curve is a sheet already.")
    asked = asked_of(space, shape, scars, is_fit)
    if [*files, *(each.rpartition("=")[2] for each in curves)].count(STANDARD) > 1:
        raise Unusable("Standard input (-) can be named once only.")
    keep_inputs(output, [*files, *curves, *(each.partition("=")[2] for each in curves)])
    made_format = written_format(output, written, FORMATS)
    counting, found = counting_of(first, each_first), read_series(files, **reading)
    names = named_by(Names(series, earlywood, latewood), found)
    jobs = [] if is_fit else jobs_by_sheets(found, curves, names, reading["strict"])
    taken = chosen_series(found, names) if is_fit else [job.series for job in jobs]
    click.echo(counting.words(taken), err=True)
    if sheets is not None:
        keep_from_sheets(sheets, taken, files)
    starts = counting.starts(taken)
    done: Iterable[Indexed]
    if is_fit:
        done = fits = by_fits(fitted_all(taken, starts, asked), sheets, space is None)
    else:
        done = (divided(job.series, job.curve, start, job.wood) for job, start in zip(jobs, starts))
    if made_format == TUCSON:
        pieces: Iterable[bytes] = [as_tucson(done)]
    else:
        warn_of_computed(taken)
        pieces = table_pieces(done)
    write_pieces(output, pieces)
    return REFUSED if is_fit and len(fits) < len(taken) else 0
