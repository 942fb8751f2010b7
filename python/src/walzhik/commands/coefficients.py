"""The command `coefficients`: from a supplier's ordinates to a sheet."""

from __future__ import annotations

import csv
import io
from collections.abc import Sequence
from fractions import Fraction
from typing import NamedTuple

import click

from .. import sheet
from ..curve import Curve
from ..decimals import NoNumber, exact
from ..errors import Refused
from ..failures import Refusal, Unusable, telling
from ..files import STANDARD, read_whole, write_whole
from ..limits import PER_MM, UNIT, WOOD
from ..recover import nearest, recover
from ..sheet import Sheet
from ..space import Space
from ..words.quoting import quoted
from ._lists import WholeNumbers, space_of
from ._outputs import format_option, keep_inputs, written_format
from ._sheets import read_sheet

NUMBERS = WholeNumbers()
UNITS = {"_mm": UNIT * PER_MM, "_256ths": 1}  # by the ending of a column's name: how many 256ths of a thousandth
RING, STRETCH = "ring", "stretch"
FORMATS = ("sheet",)


class Column(NamedTuple):
    """A column of ordinates: whose they are, and in 256ths of a thousandth."""

    part: str
    ordinates: list[int]


class Row(NamedTuple):
    """A row of a table, and the line that it ends with."""

    line: int
    fields: list[str]


def ordinate(text: str, unit: int, line: int) -> int:
    """An ordinate in whole 256ths of a thousandth: no digit is rounded away."""
    try:
        found = exact(text) * unit
    except NoNumber as error:
        raise Refusal(f"Line {line}: {error}.") from error
    if found.denominator != 1:
        raise Refusal(
            f"Line {line}: {text} is no whole number of 256ths of a thousandth of a millimetre. "
            "Ask for exact ordinates."
        )
    return int(found)


def check_stretches(rows: Sequence[Row], at: int, space: Space) -> None:
    """The column of stretches must count each stretch as often as it has ordinates."""
    wanted = [str(stretch) for stretch, degree in enumerate(space.degrees.tolist()) for _ in range(degree + 1)]
    for (line, fields), stretch in zip(rows, wanted):
        if fields[at].strip() != stretch:
            raise Refusal(
                f"Line {line} is of stretch {fields[at]}, but by the degrees it belongs to stretch {stretch}, "
                "counted from 0."
            )


def rows_of(text: bytes) -> list[Row]:
    """The rows of a CSV table, its header first, all of one length."""
    try:
        reader = csv.reader(io.StringIO(text.decode("utf-8-sig"), newline=""), strict=True)
        rows = [Row(reader.line_num, fields) for fields in reader]
    except UnicodeDecodeError as error:
        raise Unusable(f"It is no CSV table: byte {error.start} is no letter of a text (UTF-8).") from error
    except csv.Error as error:
        raise Unusable(f"It is no CSV table: {error}.") from error
    if not rows or not rows[0].fields:
        raise Unusable("It is no CSV table: its first line is empty, where the names of the columns stand.")
    for line, fields in rows:
        if len(fields) != len(rows[0].fields):
            raise Unusable(f"Line {line} has {len(fields)} fields, but the header has {len(rows[0].fields)}.")
    return rows


def columns_of(text: bytes, space: Space) -> list[Column]:
    """The columns of a supplier's table."""
    (_, head), *lines = rows_of(text)
    found: list[Column] = []
    for at, name in enumerate(each.strip() for each in head):
        part, ending = next(((name.removesuffix(end), end) for end in UNITS if name.endswith(end)), (name, ""))
        if name == STRETCH:
            check_stretches(lines, at, space)
        elif ending and part in (*WOOD, RING) and part not in [column.part for column in found]:
            found.append(Column(part, [ordinate(fields[at], UNITS[ending], line) for line, fields in lines]))
        else:
            raise Unusable(
                f"Column {quoted(name.encode('utf-8'))} is not known: earlywood_mm, latewood_mm or ring_mm, or the same with _256ths; "
                "and stretch."
            )
    return checked_parts(found)


def checked_parts(found: list[Column]) -> list[Column]:
    """One column of the whole ring, or both wood parts, earlywood first."""
    parts = {column.part: column for column in found}
    if set(parts) == {RING}:
        return found
    if set(parts) == set(WOOD):
        return [parts[wood] for wood in WOOD]
    raise Unusable("A sheet needs both wood parts, earlywood and latewood, or the whole ring, in columns of the table.")


def say_fractions(part: str, fractions: Sequence[Fraction]) -> None:
    """Print exact coefficients."""
    click.echo(f"Exact coefficients of the {part}, in thousandths: {', '.join(map(str, fractions))}", err=True)


def exact_column(space: Space, column: Column) -> list[int]:
    """Exact coefficients that a sheet can hold."""
    with telling(f"The ordinates of the {column.part}"):
        fractions = recover(space, column.ordinates)
    say_fractions(column.part, fractions)
    for row, fraction in enumerate(fractions):
        if fraction.denominator != 1:
            raise Refusal(
                f"Coefficient {row} of the {column.part} is {fraction}, no whole number of thousandths: "
                "a sheet can't hold it. --nearest takes the nearest that it can."
            )
    return [int(fraction) for fraction in fractions]


def nearest_column(space: Space, column: Column) -> list[int]:
    """The nearest coefficients, marked as such, with how far off they are."""
    with telling(f"The ordinates of the {column.part}"):
        found = nearest(space, column.ordinates)
        try:
            say_fractions(column.part, recover(space, column.ordinates))
        except Refused as error:
            click.echo(f"The ordinates of the {column.part}: no={error.number},{error.place}. {error.words}", err=True)
        given = [each for stretch in Curve(space, found).ordinates() for each in stretch]
    furthest = max(abs(exact - Fraction(number, UNIT)) for exact, number in zip(given, column.ordinates))
    told = f"the ordinate furthest off is so by {float(furthest):.6f} thousandths"
    click.echo(f"NEAREST, not exact: coefficients of the {column.part} by least squares, rounded; {told}.", err=True)
    return [int(number) for number in found]


@click.command()
@click.argument("table", metavar="CSV")
@click.option("--space", "like", metavar="SHEET", help="Take breakpoints, degrees and orders from this sheet.")
@click.option("--breaks", type=NUMBERS, help="Breakpoints in rings, as 0,20,60.")
@click.option("--degrees", type=NUMBERS, help="The degree of each stretch, as 2,2.")
@click.option("--orders", type=NUMBERS, help="The order of each join, as 1; -1 is a scar.")
@click.option(
    "--nearest", "is_nearest", is_flag=True, help="Take the least-squares coefficients, rounded; they are not proved."
)
@format_option(FORMATS)
@click.option(
    "-o", "--output", default=STANDARD, metavar="SHEET", help="The sheet to write; standard output without it."
)
def command(
    table: str,
    like: str | None,
    breaks: list[int] | None,
    degrees: list[int] | None,
    orders: list[int] | None,
    is_nearest: bool,
    written: str | None,
    output: str,
) -> int:
    """Work out a sheet's coefficients from the ordinates (handles) of its stretches, as a supplier sends them.

    CSV has a header and a line an ordinate, those of all stretches in order, degree + 1 for each. Its columns are
    earlywood_mm and latewood_mm, or ring_mm for the whole ring; with _256ths in place of _mm they are in 256ths of a
    thousandth of a millimetre. A column stretch, counted from 0, is checked. The exact coefficients are printed as
    fractions on standard error; where the ordinates miss a condition of a join, that join is named, and by how much.

    \b
    ./walzhik coefficients ordinates.csv --breaks 0,20,60 --degrees 2,2 --orders 1 -o bought.sheet
    """
    keep_inputs(output, [table, like])
    written_format(output, written, FORMATS)
    if like is not None and any(each is not None for each in (breaks, degrees, orders)):
        raise Unusable("Give --breaks, --degrees and --orders, or --space SHEET, which has its own.")
    if table == like == STANDARD:
        raise Unusable("Standard input (-) can be named once only.")
    with telling(like or "the space"):
        space = _space(read_sheet(like)) if like else space_of(breaks, degrees, orders)
    if space is None:
        raise Unusable("Give the stretches: --breaks, --degrees and --orders, or --space SHEET.")
    with telling(table):
        columns = columns_of(read_whole(table), space)
    found = [nearest_column(space, each) if is_nearest else exact_column(space, each) for each in columns]
    lists = space.lists()
    made = Sheet(lists.breaks, lists.degrees, lists.orders, list(zip(found[0], found[-1])))
    with telling("The sheet"):
        sheet.read(made.text())
    write_whole(output, made.text())
    return 0


def _space(lists: Sheet) -> Space:
    return Space(lists.breaks, lists.degrees, lists.orders)
