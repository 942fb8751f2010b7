"""How every command reads measured widths: the options, the notes told on standard error, and the proved calls behind them. Apart
because no command may read such a file in a way of its own.
"""

from __future__ import annotations

from collections import Counter
from collections.abc import Callable, Sequence
from typing import Any, NamedTuple, TypeVar

import click

from .. import notes, tucson, widths
from ..failures import Refusal, Unusable, telling
from ..files import read_whole
from ..formats import FORMS, Form, form_of
from ..limits import NAME_COLUMNS
from ..tucson import Cleaned, Series, Unit
from ..widths import UNIT_OF_TABLES, Asked, Unreadable
from ..words.quoting import quoted
from ._numbers import Whole

Decorated = TypeVar("Decorated", bound=Callable[..., Any])
UNIT_OF_HEIDELBERG = (
    "--hundredths and --thousandths are for Tucson files. A Heidelberg file says its Unit, or --unit does."
)
OF_TUCSON = "--header is for Tucson files: other files have headers of their own."
MOST_HEADER = 99
NO_SERIES = "The file holds no series."
NO_SERIES_REMEDY = "See that it is the right file, and whole."
ONE_OF_TWO = "Give the second one a name of its own, or put its lines behind the first if they belong together."
NO_SPLITTING = (
    "--split-gaps is no more: what it made of the pieces was a guess. Split a series by hand: put its closing, 999 or "
    "-9999, behind the last width before the gap, and give the lines behind the gap another name. Without the option the "
    "command names the line and the missing years."
)


class Reading(NamedTuple):
    """What a user has asked of the reading."""

    unit: Unit | None = None
    header: int | None = None
    strict: bool = False
    form: Form | None = None
    asked: Asked = Asked()
    is_quiet: bool = False

    def form_of(self, name: str, data: bytes) -> Form:
        """What a file is: as --from says, else by its ending, else by its content; --strict is for Tucson files.

        Raises
        ------
        Unusable
            If an option for Tucson files is given, and it is none.
        """
        form = self.form or form_of(name, data)
        if self.strict and form != "tucson":
            raise Unusable(f"{name}: --strict takes a Tucson file as it is. Leave it out for other files.")
        if self.unit is not None and form != "tucson":
            raise Unusable(f"{name}: {UNIT_OF_TABLES if form == 'csv' else UNIT_OF_HEIDELBERG}")
        if self.header is not None and form != "tucson":
            raise Unusable(f"{name}: {OF_TUCSON}")
        return form


def unit_asked(hundredths: bool, thousandths: bool) -> Unit | None:
    """The unit of the two flags.

    Raises
    ------
    click.UsageError
        If both are given.
    """
    if hundredths and thousandths:
        raise click.UsageError("Give --hundredths or --thousandths, not both.")
    return "hundredths" if hundredths else "thousandths" if thousandths else None


def reading_asked(
    hundredths: bool,
    thousandths: bool,
    header: int | None,
    strict: bool,
    said: str | None = None,
    quiet: bool = False,
    **asked: Any,
) -> Reading:
    """What the options for Tucson files, --from and the options of the other fronts ask.

    Raises
    ------
    click.UsageError
        If one of them would be dropped.
    """
    if strict and (hundredths or thousandths or header is not None):
        raise click.UsageError(
            "--strict takes a file as it is: --header, --hundredths and --thousandths go without it."
        )
    form = None if said is None else FORMS[said]
    return Reading(unit_asked(hundredths, thousandths), header, strict, form, Asked(**asked), quiet)


def is_asked(options: dict[str, Any]) -> bool:
    """Whether any of the options is given; --header 0 is.

    Examples
    --------
    >>> is_asked({"header": 0}), is_asked({"header": None, "strict": False})
    (True, False)
    """
    return any(value is not None and value is not False for value in options.values())


def refuse_splitting(_: click.Context, __: click.Parameter, is_given: bool) -> None:
    """Refuse --split-gaps with words that say what to do instead."""
    if is_given:
        raise Unusable(NO_SPLITTING)


def front_options(function: Decorated) -> Decorated:
    """The options --header, --hundredths and --thousandths; --split-gaps is refused."""
    for option in (
        click.option(
            "--split-gaps", is_flag=True, hidden=True, is_eager=True, expose_value=False, callback=refuse_splitting
        ),
        click.option("--thousandths", is_flag=True, help="Widths closed by -999 are thousandths of a millimetre."),
        click.option("--hundredths", is_flag=True, help="Widths closed by -999 are hundredths of a millimetre."),
        click.option(
            "--header",
            type=Whole(0, MOST_HEADER),
            metavar="N",
            help="The first N lines of a Tucson file are its header; else the data bank's three are found.",
        ),
    ):
        function = option(function)
    return function


def quiet_option(function: Decorated) -> Decorated:
    """The option --quiet."""
    words = "Of a Tucson file tell only what a date may hang on, not what was brought into the strict form."
    return click.option("--quiet", is_flag=True, help=words)(function)


def strict_option(function: Decorated) -> Decorated:
    """The option --strict."""
    words = "Take a Tucson file as it is: it must be in the strict form."
    return click.option("--strict", is_flag=True, help=words)(function)


def other_options(function: Decorated) -> Decorated:
    """The options of the fronts for Heidelberg files and tables: --unit, --year-zero, --rename and --round."""
    units = click.Choice(["mm", "hundredths", "thousandths"])
    for option in (
        click.option("--round", "rounds", is_flag=True, help="Round widths finer than thousandths of a millimetre."),
        click.option("--rename", is_flag=True, help="Number names that are longer than eight columns or come twice."),
        click.option("--year-zero", type=click.Choice(["yes", "no"]), help="Whether years below 1 count a year 0."),
        click.option("--unit", type=units, help="What widths of a table are, or of a Heidelberg file without Unit."),
    ):
        function = option(function)
    return function


def from_option(function: Decorated) -> Decorated:
    """The option --from."""
    words = "What every file of widths is; else by its ending or content."
    return click.option("--from", "said", type=click.Choice(list(FORMS)), help=words)(function)


def told_other(name: str, data: bytes, form: Form, asked: Asked) -> tuple[bytes, list[Series]]:
    """The bytes of a Heidelberg file or a table as a strict text and its series; each change is told on standard error."""
    made = widths.read(data, form, asked)
    for change in made.changes:
        click.echo(f"{name}: {change}", err=True)
    return made.text, made.series


def tell_notes(name: str, found: Sequence[notes.Note], is_full: bool, is_quiet: bool) -> None:
    """Tell the notes on a file on standard error: all of them, or how many lines were changed and all remarks; quietly, remarks
    alone."""
    told = found if is_full and not is_quiet else notes.remarks(found)
    changed = "" if is_full or is_quiet else notes.summary(found)
    for words in ([changed] if changed else []) + notes.sentences(told):
        click.echo(f"{name}: {words}", err=True)


def told_series(name: str, front: Cleaned, reading: Reading, is_full: bool) -> list[Series]:
    """The series of a Tucson file in the strict form; the notes are told on standard error.

    Raises
    ------
    Unreadable
        If a name comes again.
    """
    series = tucson.read_strict(front.text)
    tell_notes(name, front.notes, is_full, reading.is_quiet)
    refuse_repeated(front, series)
    return series


def refuse_repeated(front: Cleaned, series: Sequence[Series]) -> None:
    """No name, outer blanks apart, comes again after another series: its series would be taken for one another."""
    if max(Counter(each.name.strip(" ") for each in series).values(), default=1) == 1:
        return
    last: dict[bytes, int] = {}
    before = b""
    for line, body in zip(front.lines, front.text.split(b"\n")):
        columns = body[:NAME_COLUMNS]
        name = columns.strip(b" ")
        if columns != before and name in last:
            raise Unreadable(
                line, f"series {quoted(columns)} comes again, after its last line {last[name]}.", ONE_OF_TWO
            )
        last[name], before = line, columns


def cleaned(name: str, reading: Reading, *, is_full: bool = False) -> tuple[bytes, list[Series]]:
    """A file, or standard input for ``-``, as a strict text and its series; notes are told on standard error, in full where it is
    asked.

    Raises
    ------
    Refusal
        If there is no series.
    """
    with telling(name):
        data = read_whole(name)
        form = reading.form_of(name, data)
        if form != "tucson":
            return told_other(name, data, form, reading.asked)
        if reading.strict:
            text, series = data, tucson.read_strict(data)
        else:
            front = tucson.clean(data, reading.header, reading.unit)
            del data  # a large file is held once
            text, series = front.text, told_series(name, front, reading, is_full)
    if not series:
        raise Refusal(f"{name}: {NO_SERIES} {NO_SERIES_REMEDY}")
    return text, series


def refuse_shared_names(files: list[tuple[str, list[Series]]]) -> None:
    """No name stands in two of the files: their series would be taken for one another.

    Raises
    ------
    Refusal
        If one does.
    """
    seen: dict[str, int] = {}
    for place, (name, series) in enumerate(files):
        for each in series:
            before = seen.setdefault(each.name.strip(), place)
            if before != place:
                told = f"series {quoted(each.columns)} is also in {files[before][0]}. Give one of them another name."
                raise Refusal(f"{name}: {told}")
