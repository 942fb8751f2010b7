"""The command `curve`: a sheet's curves as a table."""

from __future__ import annotations

import click

from .._engine import MOST_POSITIONS
from ..csvtext import decimal, millionths, quoted_field
from ..curve import Curve
from ..decimals import NoNumber, exact
from ..failures import Unusable, telling
from ..files import STANDARD, write_whole
from ..limits import UNIT, WOOD
from ._outputs import format_option, keep_inputs, written_format
from ._sheets import read_sheet

FORMATS = ("csv",)
WHOLE = "ring"  # what a column calls the whole ring


def step(every: str) -> int:
    """The distance of two positions in 256ths of a ring; it may be typed as a fraction of two numbers."""
    top, slash, bottom = every.partition("/")
    try:
        distance = exact(top) * UNIT / (exact(bottom) if slash else 1)
    except (NoNumber, ZeroDivisionError) as error:
        raise Unusable(f"--every is no number of rings: {error}.") from error
    if distance <= 0 or distance.denominator != 1:
        raise Unusable(f"--every {every}: positions are whole 256ths of a ring, as 1, 0.5 or 1/256.")
    return int(distance)


def ring_text(position: int) -> str:
    """A position as a ring, exactly.

    Examples
    --------
    >>> ring_text(512), ring_text(320)
    ('2', '1.25')
    """
    return str(position // UNIT) if position % UNIT == 0 else repr(position / UNIT)


def rows(curve: Curve, distance: int, woods: int) -> list[str]:
    """The lines of a curve's table, from the first breakpoint to the last, with so many wood parts."""
    first, last = (UNIT * int(end) for end in curve.space.breaks[[0, -1]])
    positions = [*range(first, last, distance), last]
    lines: list[str] = []
    for at in range(0, len(positions), MOST_POSITIONS):
        piece = positions[at : at + MOST_POSITIONS]
        values = millionths(curve.values(piece))[:, :woods]
        for position, widths in zip(piece, values.tolist()):
            lines.append(f"{ring_text(position)},{','.join(map(decimal, widths))}\n")
    return lines


@click.command()
@click.argument("sheets", nargs=-1, required=True, metavar="SHEET...")
@click.option("--every", default="1", metavar="RINGS", help="Distance of the rings, as 5, 0.25 or 1/256; 1 without it.")
@format_option(FORMATS)
@click.option("-o", "--output", default=STANDARD, metavar="CSV", help="The table to write; standard output without it.")
def command(sheets: tuple[str, ...], every: str, written: str | None, output: str) -> int:
    """Print a sheet's curves as CSV, from its first breakpoint to its last; the sheet's at= list is not asked.

    The last breakpoint is always there. A curve of the whole ring has one column, ring_mm. SHEET may be - for standard
    input. Several sheets have a column with their names in front.

    \b
    ./walzhik curve examples/sheets/step_4.sheet --every 30
    ring,earlywood_mm,latewood_mm
    0,2.400000,0.700000
    30,1.218750,0.637500
    60,0.900000,0.300000
    90,0.800000,0.250000
    """
    keep_inputs(output, sheets)
    written_format(output, written, FORMATS)
    distance = step(every)
    curves = []
    for name in sheets:
        lists = read_sheet(name)
        with telling(name):
            curves.append(lists.curve())
    parts = (WHOLE,) if all(curve.is_whole_ring for curve in curves) else WOOD
    columns = ["sheet"] * (len(sheets) > 1) + ["ring"] + [f"{part}_mm" for part in parts]
    lines = [f"{','.join(columns)}\n"]
    for name, curve in zip(sheets, curves):
        made = rows(curve, distance, len(parts))
        lines += made if len(sheets) == 1 else [f"{quoted_field(name)},{row}" for row in made]
    write_whole(output, "".join(lines).encode("utf-8"))
    return 0
