"""The command `plot`: a picture of a sheet's curve, with measured widths and their indices."""

from __future__ import annotations

from collections.abc import Sequence
from pathlib import PurePath
from typing import TYPE_CHECKING, Any, get_args

import click

from .. import plot
from ..curve import Wood
from ..failures import Unusable, telling
from ..files import STANDARD, read_whole, write_whole
from ..fit import Shape
from ..formats import BY_ENDING, LOOKED_AT, SHEET_LINE, ending, kind_of
from ..plot import ENDINGS, Ending, Measured
from ..plot_series import counted, measured_series, parts_of
from ._fits import asked_of, shape_options
from ._numbers import counting_of, counting_options
from ._outputs import keep_inputs
from ._plot_series import Looks, fitted_picture, measured_picture
from ._series import read_series, reading_options, wood_options
from ._sheets import read_sheet
from ._tucson_files import is_asked

if TYPE_CHECKING:
    from matplotlib.figure import Figure


def is_sheet(name: str, is_said: bool) -> bool:
    """Whether a file is a sheet, by its ending, else by its content; standard input is taken for one. Where it is said what files
    of widths are, only what has a sheet's lines is one."""
    if name == STANDARD:
        return True
    with telling(name):
        if is_said and ending(name) not in BY_ENDING:
            return SHEET_LINE.search(read_whole(name)[:LOOKED_AT]) is not None
        return kind_of(name, b"" if ending(name) in BY_ENDING else read_whole(name)) == "sheet"


def is_measured_alone(files: tuple[str, ...], curve: str | None, is_said: bool) -> bool:
    """Whether no sheet is given, but Tucson files are."""
    return curve is None and bool(files) and not any(is_sheet(name, is_said) for name in files)


def refuse_curves(files: tuple[str, ...], curve: str | None, wood: str, is_said: bool) -> None:
    """What goes with a sheet alone, where there is none."""
    if curve is not None or not files or any(name != STANDARD and is_sheet(name, is_said) for name in files):
        raise Unusable("--fit goes with Tucson files, and without a sheet.")
    if wood != "both":
        raise Unusable("--wood goes with a sheet: name the series of the wood part instead.")
    if files.count(STANDARD) > 1:
        raise Unusable("Standard input (-) can be named once only.")


def sheet_and_files(files: tuple[str, ...], curve: str | None, is_said: bool) -> tuple[str, tuple[str, ...]]:
    """The sheet and the Tucson files: all files are such where --curve names the sheet."""
    if curve is not None:
        return curve, files
    sheets = [name for name in files if is_sheet(name, is_said)]
    if len(sheets) != 1:
        found = "none is" if not sheets else f"{len(sheets)} are"
        raise Unusable(f"Give one sheet, as a file or with --curve SHEET: {found} given.")
    return sheets[0], tuple(name for name in files if name != sheets[0])


def ending_of(output: str, chosen: str | None) -> Ending:
    """The kind of picture, by the name's ending or as it is said."""
    asked = chosen or ending(output)
    for each in ENDINGS:
        if asked == each:
            return each
    raise Unusable(f"{output}: the picture's name must end in .svg, .png or .pdf, or --format say which it is.")


def readable(text: str) -> str:
    """A text of the command line, with a mark for each byte that is no letter.

    Examples
    --------
    >>> ascii(readable("Eiche \\udcff"))
    "'Eiche \\\\ufffd'"
    """
    return text.encode("utf-8", "surrogateescape").decode("utf-8", "replace")


@click.command()
@click.argument("files", nargs=-1, metavar="[SHEET] [FILE.rwl...]")
@click.option("--curve", metavar="SHEET", help="The sheet, where it is not among the files.")
@click.option("--fit", "is_fit", is_flag=True, help="In place of a sheet: fit a curve to the series, and draw both.")
@shape_options
@wood_options("A series to draw with a curve of the whole ring, or a pattern as 'DTR*'.")
@click.option(
    "--wood", type=click.Choice([*get_args(Wood), "both"]), default="both", help="Draw one wood part's curve alone."
)
@counting_options
@click.option("--title", metavar="WORDS", help="Above the picture; the sheet's name without it.")
@click.option("--narrow", is_flag=True, help="Half the width, to stand beside another picture.")
@reading_options
@click.option("--format", "chosen", type=click.Choice(ENDINGS), help="The kind of picture, where OUT does not say it.")
@click.option("-o", "--output", required=True, metavar="OUT", help="The picture: OUT.svg, OUT.png or OUT.pdf.")
def command(
    files: tuple[str, ...],
    curve: str | None,
    is_fit: bool,
    shape: Shape | None,
    scars: tuple[int, ...],
    series: tuple[str, ...],
    earlywood: tuple[str, ...],
    latewood: tuple[str, ...],
    wood: str,
    first: int | None,
    each_first: int | None,
    title: str | None,
    narrow: bool,
    chosen: str | None,
    output: str,
    **reading: Any,
) -> None:
    """Draw a sheet's curve; with Tucson files, their widths behind it and the ring indices below.

    A sheet whose pairs all have two equal sides is a curve of the whole ring: all series are drawn, or those named by --series. Of any
    other sheet the series of a wood part must be named; where one part's are, its curve alone is drawn. Scars are solid lines across,
    joins dotted ones; a cross is an absent ring, a circle a value of the sheet's at= list that is zero or less.

    With --fit in place of a sheet, a curve is fitted as `fit` does it and drawn with the widths. Tucson files alone are drawn as their
    widths, without a curve.

    Curve, values and indices are the engine's. The picture itself is tested, not proved. - is standard input.

    \b
    ./walzhik plot examples/sheets/step_4.sheet -o step_4.svg
    ./walzhik plot examples/sheets/roof.sheet examples/tucson/oak.rwl
                   --earlywood ROOF04E --latewood ROOF04L -o roof.png
    ./walzhik plot examples/tucson/oak.rwl --fit --series ROOF04E -o oak.svg
    ./walzhik plot examples/tucson/pine.rwl -o pine.svg

    Exit status: 0 done, 1 refused, 2 wrong usage, or a file can't be read or written.
    """
    drawn_as, asked, counting = (
        ending_of(output, chosen),
        asked_of(None, shape, scars, is_fit),
        counting_of(first, each_first),
    )
    names: dict[Wood, tuple[str, ...]] = {"earlywood": earlywood, "latewood": latewood}
    is_said = reading["said"] is not None
    if is_fit or is_measured_alone(files, curve, is_said):
        refuse_curves(files, curve, wood, is_said)
        keep_inputs(output, files)
        found, looks = read_series(files, **reading), Looks(heading_of(title, files[0]), counting, narrow)
        if is_fit:
            made = fitted_picture(found, names, series, asked, looks)
        else:
            made = measured_picture(found, names, series, looks)
    else:
        name, tucson_files = sheet_and_files(files, curve, is_said)
        if (name, *tucson_files).count(STANDARD) > 1:
            raise Unusable("Standard input (-) can be named once only.")
        keep_inputs(output, [name, *tucson_files])
        looks = Looks(heading_of(title, name), counting, narrow)
        made = sheet_picture(name, tucson_files, names, series, wood, looks, reading)
    write_whole(output, plot.rendered(made, drawn_as))


def heading_of(title: str | None, name: str) -> str:
    """The picture's title, or its file's name; letters that the font lacks are told."""
    heading = readable(PurePath(name).stem if title is None else title)
    if lost := plot.lacking(heading):
        click.echo(f"The font has no {lost} for the title: an empty box stands in its place.", err=True)
    return heading


def sheet_picture(
    name: str,
    tucson_files: tuple[str, ...],
    names: dict[Wood, tuple[str, ...]],
    series: Sequence[str],
    wood: str,
    looks: Looks,
    reading: dict[str, Any],
) -> Figure:
    """The picture of a sheet's curve, with the widths of Tucson files."""
    if not tucson_files and any((series, *names.values())):
        raise Unusable("Series are named, but no Tucson file is given.")
    if not tucson_files and is_asked(reading):
        raise Unusable("An option says how Tucson files are read, but none is given.")
    lists = read_sheet(name, strict=reading["strict"])
    with telling(name):
        drawn = lists.curve()
    measured = list[Measured]()
    if tucson_files:
        taken = measured_series(read_series(tucson_files, **reading), drawn, names, series)
        click.echo(looks.counting.words([each for each, _ in taken]), err=True)
        measured = counted(taken, looks.counting)
    elif not looks.counting.is_by_years:
        raise Unusable("--first and --each-first count the rings of series, but no Tucson file is given.")
    with telling(name):
        return plot.picture(
            drawn,
            measured,
            parts=parts_of(drawn, wood, names),
            title=looks.title,
            rings=looks.rings if measured else "ring",
            at=lists.at,
            is_narrow=looks.is_narrow,
        )
