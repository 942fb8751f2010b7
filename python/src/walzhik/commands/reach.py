"""The command `reach`: the first ring where a curve reaches a width."""

from __future__ import annotations

import click
import numpy as np

from ..csvtext import quoted_field
from ..curve import Curve, Wood
from ..decimals import NoNumber, exact
from ..errors import Refused
from ..failures import REFUSED, Refusal, Unusable, telling, told
from ..files import STANDARD, write_whole
from ..limits import PER_MM, UNIT, WOOD
from ._outputs import format_option, keep_inputs, written_format
from ._sheets import read_sheet
from .curve import ring_text

FORMATS = ("csv",)


def thousandths(width: str) -> int:
    """A width in millimetres as whole thousandths."""
    try:
        found = exact(width) * PER_MM
    except NoNumber as error:
        raise Unusable(f"--width is no number of millimetres: {error}.") from error
    if found.denominator != 1:
        raise Unusable(f"--width {width}: a width is whole thousandths of a millimetre, as 1.25.")
    return int(found)


def first_below(curve: Curve, width: int, wood: Wood | None) -> int | None:
    """The least position whose value is under a width, or None: the engine's values at all positions are looked at."""
    for positions, values in curve.scanned():
        low = np.flatnonzero(values[:, curve.side(wood)] < UNIT * width)
        if low.size:
            return positions[int(low[0])]
    return None


def found_position(name: str, curve: Curve, width: int, wood: Wood | None, is_below: bool) -> int:
    """The first position that is asked for.

    Raises
    ------
    Refused
        If the engine says that none reaches the width.
    Refusal
        If none is below it.
    """
    if not is_below:
        return curve.reach(width, wood)
    position = first_below(curve, width, wood)
    if position is None:
        start, end = curve.space.breaks[[0, -1]].tolist()
        part = f"the {wood}" if wood else "the whole ring"
        raise Refusal(
            f"{name}: no position from ring {start} to ring {end} is below {width / PER_MM:.3f} mm in {part}."
        )
    return position


def asked_parts(curve: Curve, wood: Wood | None) -> list[Wood | None]:
    """The wood parts that are told: the one that is named, both, or the whole ring."""
    if wood or curve.is_whole_ring:
        return [wood]
    return ["earlywood", "latewood"]


@click.command()
@click.argument("sheets", nargs=-1, required=True, metavar="SHEET...")
@click.option("--width", required=True, metavar="MM", help="The width in millimetres, with at most three decimals.")
@click.option("--below", "is_below", is_flag=True, help="The first position under the width, as of a curve that falls.")
@click.option("--wood", type=click.Choice(WOOD), help="One wood part; without it both are told, or the whole ring.")
@format_option(FORMATS)
@click.option("-o", "--output", default=STANDARD, metavar="CSV", help="The table to write; standard output without it.")
def command(
    sheets: tuple[str, ...], width: str, is_below: bool, wood: Wood | None, written: str | None, output: str
) -> int:
    """Print the first position where a sheet's curves reach a width, as CSV; with --below, where they are under it.

    The ring is exact; the position is in 256ths of a ring. Where a curve never reaches the width both are empty, the
    reason is said and the exit status is 1. Reaching is a call of the engine; --below looks at the engine's values of
    all positions. SHEET may be - for standard input.

    \b
    ./walzhik reach examples/sheets/growth.sheet --width 2.5 --wood earlywood
    sheet,wood,width_mm,ring,position
    examples/sheets/growth.sheet,earlywood,2.500,0.7421875,190
    """
    keep_inputs(output, sheets)
    written_format(output, written, FORMATS)
    asked, status, lines = thousandths(width), 0, ["sheet,wood,width_mm,ring,position\n"]
    for name in sheets:
        lists = read_sheet(name)
        with telling(name):
            curve = lists.curve()
        for part in asked_parts(curve, wood):
            head = f"{quoted_field(name)},{part or 'ring'},{asked / PER_MM:.3f}"
            try:
                position = found_position(name, curve, asked, part, is_below)
                lines.append(f"{head},{ring_text(position)},{position}\n")
            except (Refused, Refusal) as error:
                lines.append(f"{head},,\n")
                failure = told(error, name)
                click.echo(failure.message if failure else str(error), err=True)
                status = REFUSED
    write_whole(output, "".join(lines).encode("utf-8"))
    return status
