"""The command `bank`: all files of a laboratory at once, on all cores of this machine or on a cluster."""

from __future__ import annotations

import os
from collections.abc import Callable
from contextlib import suppress
from pathlib import Path
from typing import Any, Literal

import click

from ..bank.address import Address, address
from ..bank.dry import dry_run
from ..bank.local import LocalWorkers
from ..bank.options import Options
from ..bank.report import Summary, counted
from ..bank.run import Asked, run
from ..bank.task import Task
from ..bank.workers import Workers
from ..choosing import Names
from ..counting import Counting
from ..failures import Unusable, telling
from ..fit import Shape
from ..space import Space
from ._fits import asked_of, shape_options
from ._lists import WholeNumbers, space_of
from ._numbers import counting_of, counting_options
from ._series import file_options
from ._sheets import read_sheet
from ._tucson_files import reading_asked

NUMBERS = WholeNumbers()
DONE, REFUSED, UNREAD = 0, 1, 2
SHOWN_REFUSALS = 12


def cores() -> int:
    """How many processors this process may use."""
    return len(os.sched_getaffinity(0))


def lists_of_space(space: Space | None) -> tuple[list[int], list[int], list[int]] | None:
    """The lists of the space of all fits, where it is given."""
    if space is None:
        return None
    lists = space.lists()
    return list(lists.breaks), list(lists.degrees), list(lists.orders)


def lists_of_sheet(path: str, names: Names) -> tuple[list[int], list[int], list[int], list[tuple[int, int]]]:
    """The lists of the sheet that divides all series, if the proved program accepts it."""
    given = read_sheet(path)
    with telling(path):
        is_whole_ring = given.curve().is_whole_ring
    if not is_whole_ring and not names.earlywood and not names.latewood:
        raise Unusable(
            f"{path} has a curve for each wood part: name the series of each, "
            "with --earlywood PATTERN and --latewood PATTERN."
        )
    return list(given.breaks), list(given.degrees), list(given.orders), list(given.pairs)


def made_workers(probe: Task, say: Callable[[str], None], workers: int | None, scheduler: Address | None) -> Workers:
    """The workers that are asked for."""
    if scheduler is not None:
        from ..bank.cluster import ClusterWorkers

        return ClusterWorkers(scheduler, probe, say)
    return LocalWorkers(workers or cores())


def scheduler_of(
    workers: int | None,
    scheduler: str | None,
    files: tuple[str | None, str | None, str | None],
    is_plain: bool,
    ship: bool,
) -> Address | None:
    """The cluster that is asked for, if one is."""
    if scheduler is None:
        if ship or is_plain or any(files):
            raise Unusable("--ship, --no-tls and the three of --tls go with --scheduler.")
        return None
    if workers is not None:
        raise Unusable("Give --workers or --scheduler: a cluster has workers of its own.")
    return address(scheduler, files, is_plain)


def say(words: str) -> None:
    """Say something on standard error, if somebody still reads it."""
    with suppress(OSError):
        click.echo(words, err=True)


def counting_words(counting: Counting) -> str:
    """A line that says how rings are counted: in a data bank each file by itself.

    Examples
    --------
    >>> print(counting_words(Counting(first=1)))
    Rings are counted by --first, in each file by itself: the first year of the earliest of its series is ring 1.
    """
    if counting.first is None:
        return counting.words([])
    words = "Rings are counted by --first, in each file by itself: the first year of the earliest of its series"
    return f"{words} is ring {counting.first}."


def tell(summary: Summary, output: str, options: Options, is_quiet: bool) -> None:
    """What the run came to, on standard error: quietly, only what was refused or left out."""
    for told in summary.refusals[:SHOWN_REFUSALS]:
        say(f"{told.path}: {told.words}")
    if summary.refused > SHOWN_REFUSALS:
        more = counted(summary.refused - SHOWN_REFUSALS, "refusal")
        say(f"{more} more in {Path(output) / 'report.csv'}.")
    for words in summary.asides():
        say(words)
    if options.scars and not summary.scarred_series:
        say(f"--scar {options.scars[0]}: no series that was fitted has rings on both sides of it.")
    if not is_quiet:
        say(counting_words(options.counting()))
        say(f"{summary.words()} {Path(output) / 'report.html'} tells more.")


def tell_dry(asked: Asked) -> int:
    """What a run would do, a line a path on standard output."""
    would, notes = dry_run(asked)
    for note in notes:
        click.echo(note, err=True)
    for each in would:
        click.echo(each.line())
    return UNREAD if any(each.what == "refuse" for each in would) else DONE


@click.command()
@click.argument("inputs", nargs=-1, required=True, metavar="INPUT... ")
@click.argument("output", metavar="OUTPUT")
@click.option("--curve", metavar="SHEET", help="The sheet that divides all series. Without it each series is fitted.")
@click.option(
    "--fit", "is_fit", is_flag=True, help="Fit each series by a curve of its own, which is what it does anyway."
)
@click.option("--series", multiple=True, metavar="PATTERN", help="Series to take, as OAK*; all without it.")
@click.option("--earlywood", multiple=True, metavar="PATTERN", help="With --curve: series of the earlywood, as *E.")
@click.option("--latewood", multiple=True, metavar="PATTERN", help="With --curve: series of the latewood, as *L.")
@counting_options
@click.option("--breaks", type=NUMBERS, help="Breakpoints of all fits. Without them each series has a template.")
@click.option("--degrees", type=NUMBERS, help="The degree of each stretch.")
@click.option("--orders", type=NUMBERS, help="The order of each join; -1 is a scar.")
@shape_options
@file_options
@click.option("--format", "ending", type=click.Choice(["csv", "rwl"]), default="csv", help="How indices are written.")
@click.option("--workers", type=click.IntRange(1), metavar="N", help="Processes on this machine; all cores without it.")
@click.option("--scheduler", metavar="ADDRESS", help="A Dask cluster's scheduler, as tls://host:8786.")
@click.option("--ship", is_flag=True, help="Send files through the scheduler, where the machines share none.")
@click.option("--tls-ca", metavar="FILE", help="With tls://: the certificate that signs all others.")
@click.option("--tls-cert", metavar="FILE", help="With tls://: the certificate of this command.")
@click.option("--tls-key", metavar="FILE", help="With tls://: its key.")
@click.option("--no-tls", is_flag=True, help="Use a tcp:// scheduler that others can reach as well.")
@click.option("--prune", is_flag=True, help="Take outputs away whose input is not there any more.")
@click.option("--dry-run", "is_dry", is_flag=True, help="Only print what would be done.")
@click.option("--quiet", "is_quiet", is_flag=True, help="Say nothing but what was refused or went wrong.")
def command(
    inputs: tuple[str, ...],
    output: str,
    curve: str | None,
    is_fit: bool,
    series: tuple[str, ...],
    earlywood: tuple[str, ...],
    latewood: tuple[str, ...],
    first: int | None,
    each_first: int | None,
    breaks: list[int] | None,
    degrees: list[int] | None,
    orders: list[int] | None,
    shape: Shape | None,
    scars: tuple[int, ...],
    ending: Literal["csv", "rwl"],
    workers: int | None,
    scheduler: str | None,
    ship: bool,
    tls_ca: str | None,
    tls_cert: str | None,
    tls_key: str | None,
    no_tls: bool,
    prune: bool,
    is_dry: bool,
    is_quiet: bool,
    **asked_reading: Any,
) -> int:
    """Fit and divide the series of a whole data bank, on all cores.

    INPUT is a folder, which is searched deep for files that end in .rwl, .fh, .rwl.gz or .fh.gz, such a file or a
    table (.csv, .tsv), or a list: a text (.txt, or - for standard input) with a path a line. There may be several. Under OUTPUT each file has, at the same
    path, NAME.indices.csv (or .rwl, with --format rwl) and the fitted sheets, NAME.sheets/SERIES.sheet. report.csv
    there has a line a file and a line a series; report.html is for looking at.

    A file or a series that is refused is reported, and the rest goes on. Outputs appear whole or not at all, and a
    file that is refused has none. What is done for the same input, options and version is not done again, so a run that
    was interrupted goes on where it stopped: give the same command again. A PATTERN has * for any letters and ? for
    one.

    Rings are years, unless --first RING says which ring the first width of the earliest series is, of those that are
    taken of a file and in each file by itself, or --each-first RING which ring each series' own first width is. A scar
    is set in every series that has rings on both sides of it.

    With --scheduler the same is done by a Dask cluster: docs/CLUSTER.md says how to start one, with certificates.

    \b
    ./walzhik bank examples/tucson bank
    ./walzhik bank examples/tucson/oak.rwl bank --curve examples/sheets/roof.sheet --earlywood '*E' --latewood '*L'

    Exit status: 0 all went well, 1 something was refused, 2 wrong usage, or something can't be read, 3 broken off: by
    an interrupt, a full disk, a cluster that is gone.
    """
    names = Names(series, earlywood, latewood)
    space = space_of(breaks, degrees, orders)
    if curve is not None and (is_fit or space is not None or shape is not None or scars):
        raise Unusable("Give --curve, or fit: --fit, --breaks, --degrees, --orders, --shape and --scar go without it.")
    if curve is None and (earlywood or latewood):
        raise Unusable("--earlywood and --latewood go with --curve: a series that is fitted has a curve of its own.")
    fits, counting = asked_of(space, shape, scars), counting_of(first, each_first)
    reading = reading_asked(**asked_reading)
    where = scheduler_of(workers, scheduler, (tls_ca, tls_cert, tls_key), no_tls, ship)
    options = Options(
        ending=ending,
        space=lists_of_space(space),
        sheet=None if curve is None else lists_of_sheet(curve, names),
        names=names,
        first=counting.first,
        each_first=counting.each_first,
        shape=fits.shape,
        scars=fits.scars,
        strict=reading.strict,
        header=reading.header,
        unit=reading.unit,
        form=reading.form,
        asked=reading.asked,
    )
    sends: Literal["nothing", "digests", "contents"] = "nothing" if where is None else "contents" if ship else "digests"
    asked = Asked(inputs, Path(output), options, sends, prune, is_quiet)
    if is_dry:
        return tell_dry(asked)
    summary = run(asked, lambda probe, say: made_workers(probe, say, workers, where))
    tell(summary, output, options, is_quiet)
    return UNREAD if summary.unread_files else REFUSED if summary.refused else DONE
