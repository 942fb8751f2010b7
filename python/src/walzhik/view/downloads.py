"""What leaves the page as a file: the sheet, the printout, indices and pictures, made by the same functions as the
commands' output, so that both have the same bytes.
"""

from __future__ import annotations

import re
from collections.abc import Callable
from threading import Lock
from typing import NamedTuple

from .. import plot, sheet
from ..choosing import Names, chosen_series, wood_of
from ..curve import Curve, Wood
from ..dividing import Indexed, as_table, as_tucson, divided as divided_by
from ..failures import Unusable
from ..limits import WOOD
from ..plot import Ending, Measured
from ..plot_series import measured_series, parts_of
from .design import RING, Design
from .given import Given

LONGEST_STEM = 60
TABLES, INDICES = ("csv", "rwl"), "_indices"
DRAWING = Lock()  # matplotlib's settings are shared by all threads


class Download(NamedTuple):
    """A file for the browser: its ending, its type and its bytes."""

    ending: str
    kind: str
    data: bytes


def safe(name: str) -> str:
    """A name in letters that every system takes.

    Examples
    --------
    >>> safe("<b>/oak 1.sheet"), safe("ROOF04E"), safe("")
    ('oak_1', 'ROOF04E', 'curve')
    """
    last = re.split(r"[/\\]", name)[-1]
    return re.sub(r"[^A-Za-z0-9_-]", "_", last.rpartition(".")[0] or last)[:LONGEST_STEM] or "curve"


def stem(design: Design, given: Given) -> str:
    """The front of the files' names: the sheet's, or else the measured file's with the series where it has several.

    Examples
    --------
    >>> design = Design([0, 1], [1], [], [(9, 9), (9, 9)], True)
    >>> stem(design, Given({}, ["<b>/oak 1.sheet"], design))
    'oak_1'
    """
    if given.sheet_name or not given.names:
        return safe(given.sheet_name or "curve")
    chosen = [design.series[wood] for wood in design.woods if wood in design.series]
    return safe("_".join([safe(given.names[0]), *chosen]) if len(given.series) > 1 else given.names[0])


def file_name(kind: str, design: Design, given: Given) -> str:
    """The name of a file to save: indices are never named as the measured file."""
    front = stem(design, given)
    is_measured = given.series and front.startswith(safe(given.names[0]))
    return f"{front}{INDICES if kind in TABLES and is_measured else ''}.{MADE[kind][0]}"


def sheet_text(design: Design, given: Given) -> bytes:
    """The sheet, if the proved program accepts it."""
    design.curve()
    text = design.sheet(given.at).text()
    sheet.read(text)
    return text


def names_of(design: Design) -> Names:
    """The chosen series as the commands take them."""
    chosen = {wood: (name,) for wood, name in design.series.items() if wood in design.woods}
    return Names(*(chosen.get(wood, ()) for wood in (RING, *WOOD)))


def divided(design: Design, given: Given) -> list[Indexed]:
    """The chosen series with their indices, in the file's order."""
    if not any(names_of(design)):
        raise Unusable("No series is chosen: there are no rings to divide by the curve.")
    curve, names = design.curve(), names_of(design)
    return [
        divided_by(each, curve, design.origin.ring_of(each), wood_of(each.name, names, "The design", curve))
        for each in chosen_series(list(given.series.values()), names)
    ]


def picture(design: Design, given: Given, ending: Ending) -> bytes:
    """The picture that the command plot draws of the sheet and the chosen series."""
    curve: Curve = design.curve()
    names = names_of(design)
    by_part: dict[Wood, tuple[str, ...]] = {"earlywood": names.earlywood, "latewood": names.latewood}
    series = list(given.series.values())
    taken = measured_series(series, curve, by_part, names.series) if any(names) else []
    measured = [Measured(each.name, design.origin.ring_of(each), each.widths, part) for each, part in taken]
    with DRAWING:
        made = plot.picture(
            curve,
            measured,
            parts=parts_of(curve, "both", by_part),
            title=stem(design, given),
            rings="year" if measured and design.first is None else "ring",
            at=design.sheet(given.at).at,
        )
        return plot.rendered(made, ending)


MADE: dict[str, tuple[str, str, Callable[[Design, Given], bytes]]] = {
    "sheet": ("sheet", "text/plain", sheet_text),
    "printout": ("printout", "text/plain", lambda design, given: sheet.printed(sheet_text(design, given))),
    "csv": ("csv", "text/csv", lambda design, given: as_table(divided(design, given))),
    "rwl": ("rwl", "text/plain", lambda design, given: as_tucson(divided(design, given))),
    "svg": ("svg", "image/svg+xml", lambda design, given: picture(design, given, "svg")),
    "png": ("png", "image/png", lambda design, given: picture(design, given, "png")),
}


def download(kind: str, design: Design, given: Given) -> Download:
    """The file of a kind, as `MADE` lists them."""
    ending, media, make = MADE[kind]
    return Download(ending, media, make(design, given))
