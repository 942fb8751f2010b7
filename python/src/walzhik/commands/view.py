"""The command `view`: the screen, on which a curve is designed by looking at it."""

from __future__ import annotations

from pathlib import PurePath

from typing import Any

import click

from ..choosing import named
from ..failures import Unusable
from ..files import STANDARD
from ._numbers import Whole, counting_of, counting_options
from ._series import read_series, reading_options
from ._sheets import read_sheet
from ._tucson_files import is_asked

MOST_PORT = 65_535
PACKAGES = "python3-flask python3-waitress"


@click.command()
@click.argument("file", required=False, metavar="[FILE.rwl]")
@click.option(
    "--curve", metavar="SHEET", help="The sheet to begin with. Without it a template is fitted to the series."
)
@click.option(
    "--series", metavar="NAME", help="The series beside a curve of the whole ring; the file's first without it."
)
@click.option("--earlywood", metavar="NAME", help="The series of the earlywood.")
@click.option("--latewood", metavar="NAME", help="The series of the latewood.")
@counting_options
@click.option("--port", type=Whole(0, MOST_PORT), default=0, help="The port to listen on; any free one without it.")
@reading_options
def command(
    file: str | None,
    curve: str | None,
    series: str | None,
    earlywood: str | None,
    latewood: str | None,
    first: int | None,
    each_first: int | None,
    port: int,
    **reading: Any,
) -> int:
    """Show a curve on a page in this machine's browser, to be changed by hand.

    The address is printed; open it in a browser. Breakpoints and coefficients are dragged or typed, and every change is
    answered by the engine. The page gives sheets, printouts, indices and pictures as files of the browser; the server
    writes none, and answers this machine alone. End it with Ctrl-C.

    \b
    ./walzhik view examples/tucson/oak.rwl --curve examples/sheets/roof.sheet
                   --earlywood ROOF04E --latewood ROOF04L
    """
    try:
        from ..view.given import counted_series, start
        from ..view.server import Screen
    except ModuleNotFoundError as error:
        raise Unusable(f"The screen needs Debian's packages: sudo apt-get install {PACKAGES}") from error
    wanted = {"ring": series, "earlywood": earlywood, "latewood": latewood}
    asked = {wood: name for wood, name in wanted.items() if name is not None}
    if "ring" in asked and len(asked) > 1:
        raise Unusable("Give --series, or --earlywood and --latewood.")
    if asked and file is None:
        raise Unusable("A series is named, but no Tucson file is given.")
    if file is None and is_asked(reading):
        raise Unusable("An option says how a Tucson file is read, but none is given.")
    if STANDARD == file == curve:
        raise Unusable("Standard input (-) can be named once only.")
    counting = counting_of(first, each_first)
    if file is None and not counting.is_by_years:
        raise Unusable("--first and --each-first count the rings of series, but no Tucson file is given.")
    found = read_series([file] if file is not None else [], **reading)
    begun = None
    if curve is not None:
        begun = read_sheet(curve, strict=reading["strict"])
    names = [PurePath(name).name for name in (file, curve) if name is not None]
    chosen = {wood: named(found, name).name for wood, name in asked.items()}
    by_name = {each.name: each for each in found}
    if found:
        click.echo(counting.words(counted_series(by_name, chosen)), err=True)
    screen = Screen(start(by_name, begun, chosen, counting, names), port)
    click.echo(f"The screen is at {screen.address} (end with Ctrl-C).")
    screen.run()
    return 0
