"""Fits as the commands make them: the options of shape and scars, one series after the other past those that can't be
fitted, sheets in a folder, and what is said of it all."""

from __future__ import annotations

import os
import sys
from collections import Counter
from collections.abc import Callable, Iterable, Sequence
from pathlib import Path
from typing import Any, TypeVar
from urllib.parse import quote

import click

from ..failures import Failure, Refusal, Unusable
from ..files import write_whole
from ..fit import SHAPES, Closeness, Shape
from ..fit_series import Asked, Fitted, fitted_one
from ..limits import SCAR
from ..sheet import sheet_of
from ..space import Space
from ..tucson import Series
from ..words.fits import CHOICE, figures, least_words, promise, shape_words
from ._numbers import WHOLE
from ._outputs import keep_inputs

Decorated = TypeVar("Decorated", bound=Callable[..., Any])
SHOWN_FITS = 12
SHOWN_PROGRESS = 500  # series, from which on a bar shows how far it is
SHEET = ".sheet"


def shape_options(function: Decorated) -> Decorated:
    """The options --shape and --scar, for `asked_of`."""
    shapes = "A curve that falls, one with one hump, or a free one; auto falls unless a hump is better by a test."
    scar = "The last ring before a scar, as the template counts rings: there it begins anew. May come again."
    function = click.option("--scar", "scars", type=WHOLE, multiple=True, metavar="RING", help=scar)(function)
    return click.option("--shape", type=click.Choice(SHAPES), help=shapes)(function)


def asked_of(space: Space | None, shape: Shape | None, scars: Sequence[int], is_fit: bool = True) -> Asked:
    """What the options ask for.

    Raises
    ------
    Unusable
        If they contradict each other.
    """
    if not is_fit and (shape is not None or scars):
        raise Unusable("--shape and --scar go with --fit: a sheet has its own curve.")
    if space is not None and scars:
        raise Unusable(f"--scar goes without --breaks: name the scar by its order, {SCAR}, among --orders.")
    return Asked(space, shape or "auto", tuple(sorted(set(scars))))


def fitted_all(chosen: Sequence[Series], starts: Sequence[int], asked: Asked) -> list[Fitted | None]:
    """The fits of many series; None where there is none, which is told."""
    if asked.scars and not any(
        start < ring < start + len(each) - 1 for ring in asked.scars for each, start in zip(chosen, starts)
    ):
        raise Unusable(f"--scar {asked.scars[0]}: no series has rings on both sides of it.")
    made: list[Fitted | None] = []
    for each, start in in_progress(list(zip(chosen, starts))):
        try:
            made.append(fitted_one(each, start, asked))
        except Failure as failure:
            click.echo(failure.message, err=True)
            made.append(None)
    if chosen and not any(made):
        raise Refusal("No series could be fitted: nothing is written.")
    return made


def in_progress(jobs: list[tuple[Series, int]]) -> Iterable[tuple[Series, int]]:
    """The jobs, with a bar on a terminal where they are many."""
    if len(jobs) < SHOWN_PROGRESS:
        return jobs
    from tqdm import tqdm

    bar: Iterable[tuple[Series, int]] = tqdm(jobs, unit=" series", disable=not sys.stderr.isatty())
    return bar


# Sheets in a folder.


def is_folder(output: str) -> bool:
    """Whether an output is a folder: by its name's end, or because it is one."""
    return output.endswith(os.sep) or os.path.isdir(output)


def sheet_path(folder: str, series: Series) -> str:
    """Where a series' sheet goes: by its name, as in an address of the web."""
    return str(Path(folder) / f"{quote(series.name, safe='')}{SHEET}")


def keep_from_sheets(folder: str, chosen: Iterable[Series], inputs: Sequence[str]) -> None:
    """Refuse a folder in which a sheet would be one of the inputs."""
    for each in chosen:
        keep_inputs(sheet_path(folder, each), inputs)


def write_sheets(folder: str, made: Sequence[Fitted]) -> None:
    """A sheet for each fit in a folder."""
    Path(folder).mkdir(parents=True, exist_ok=True)
    for each in made:
        write_whole(sheet_path(folder, each.series), sheet_of(each.fit.curve).text())


# What is said.


def joined(numbers: Iterable[int]) -> str:
    return ",".join(map(str, numbers))


def say_space(space: Space) -> None:
    """Print a template, as a sheet would have it."""
    lists = space.lists()
    breaks, degrees, orders = (joined(each) for each in (lists.breaks, lists.degrees, lists.orders))
    click.echo(f"Template: breaks={breaks} degrees={degrees} orders={orders}", err=True)


def say_templates(made: Sequence[Fitted]) -> None:
    """Print each template once, counted from the first ring; a single series' as a sheet would have it."""
    if len(made) == 1:
        return say_space(made[0].fit.curve.space)
    held: Counter[tuple[str, str, str]] = Counter()
    for each in made:
        space = each.fit.curve.space
        held[joined((space.breaks[:-1] - space.breaks[0]).tolist()), joined(space.degrees), joined(space.orders)] += 1
    for (starts, degrees, orders), times in held.most_common(SHOWN_FITS):
        words = f"stretches start {starts} rings after the first, degrees={degrees} orders={orders}"
        click.echo(f"Template of {times:,} series: {words}", err=True)
    if len(held) > SHOWN_FITS:
        click.echo(f"There are {len(held) - SHOWN_FITS:,} templates more.", err=True)


def line_of(each: Fitted) -> str:
    """A series' line."""
    return f"Series {each.series.name}: {figures(each.close)}, {shape_words(each.fit.shapes)}"


def say_fits(made: Sequence[Fitted]) -> None:
    """How close fitted curves are and of which shape: each, or the middle and the worst of many."""
    if len(made) <= SHOWN_FITS:
        for each in made:
            click.echo(line_of(each), err=True)
    else:
        ranked = sorted(made, key=lambda each: explained(each.close))
        shapes = Counter(shape for each in made for shape in each.fit.shapes)
        kinds = ", ".join(f"{times:,} {shape}" for shape, times in shapes.most_common())
        click.echo(f"{len(made):,} series are fitted, {kinds}. Worst, {line_of(ranked[0])}", err=True)
        click.echo(f"In the middle, {line_of(ranked[len(ranked) // 2])}", err=True)
    say_of_each(made, [least_words(each.fit) for each in made])
    say_of_each(made, [each.hint.words() if each.hint is not None else "" for each in made])
    said = promise([each.fit for each in made])
    click.echo(f"{CHOICE} {said}".rstrip(), err=True)


def say_of_each(made: Sequence[Fitted], words: Sequence[str]) -> None:
    """What is told of single series, where there is something: the first of many."""
    told = [f"Series {each.series.name}: {said}" for each, said in zip(made, words) if said]
    for line in told[:SHOWN_FITS]:
        click.echo(line, err=True)
    if len(told) > SHOWN_FITS:
        click.echo(f"The same holds for {len(told) - SHOWN_FITS:,} series more.", err=True)


def explained(close: Closeness) -> float:
    return 1.0 if close.share_explained is None else close.share_explained
