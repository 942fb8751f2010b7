"""The designs of all series of a file in one ZIP file: a sheet for each, and the table of all indices, as the command
`indices` gives it with `--curve NAME=SHEET` for each series.
"""

from __future__ import annotations

from collections.abc import Sequence
from io import BytesIO
from zipfile import ZIP_DEFLATED, ZipFile, ZipInfo

from ..dividing import Indexed, as_table
from ..failures import Refusal, Unusable, telling
from .design import Design, Malformed
from .downloads import INDICES, Download, divided, safe, sheet_text
from .given import Given
from .shown import with_pairs

MOST_DESIGNS = 2_000


def chosen(design: Design) -> list[str]:
    """The names of the series beside a design's curves."""
    return [design.series[wood] for wood in design.woods if wood in design.series]


def in_order(designs: Sequence[tuple[Design, Design | None]], given: Given) -> list[Design]:
    """The designs that have a series, in the file's order, each with its own coefficients."""
    names = [name for design, _ in designs for name in chosen(design)]
    for name in names:
        if names.count(name) > 1:
            raise Malformed(f"Series {name} has two designs.")
    if not names:
        raise Unusable("No series is chosen: there is no design to save.")
    made = []
    for design, before in designs:
        with telling(f"Series {', '.join(chosen(design))}"):
            made.append(with_pairs(design, before)[0])
    places = {name: place for place, name in enumerate(given.series)}
    return sorted((each for each in made if chosen(each)), key=lambda each: min(places[name] for name in chosen(each)))


def sheets(designs: Sequence[Design], given: Given) -> dict[str, bytes]:
    """The sheets by names of files: those of the series beside each curve."""
    made: dict[str, bytes] = {}
    for design in designs:
        front = safe("_".join(chosen(design)))
        while f"{front}.sheet" in made:
            front += "_"
        with telling(f"Series {', '.join(chosen(design))}"):
            made[f"{front}.sheet"] = sheet_text(design, given)
    return made


def indices(designs: Sequence[Design], given: Given) -> list[Indexed]:
    """The indices of all series, in the file's order."""
    made: dict[str, Indexed] = {}
    for design in designs:
        made |= {each.series.name: each for each in divided(design, given)}
    return [made[name] for name in given.series if name in made]


def bundle(designs: Sequence[tuple[Design, Design | None]], given: Given) -> Download:
    """The ZIP file of several designs; nothing of it is given where one of them is refused.

    Parameters
    ----------
    designs : sequence of (Design, Design or None)
        Each with the one before it, as in `with_pairs`.
    given : Given

    Raises
    ------
    Refusal
        With the series whose sheet or indices are refused.
    """
    if len(designs) > MOST_DESIGNS:
        raise Refusal(f"{len(designs):,} designs are too many for one file: at most {MOST_DESIGNS:,}.")
    own = in_order(designs, given)
    made = sheets(own, given) | {f"{safe(given.names[0])}{INDICES}.csv": as_table(indices(own, given))}
    held = BytesIO()
    with ZipFile(held, "w", ZIP_DEFLATED) as packed:
        for name, data in made.items():
            packed.writestr(ZipInfo(name), data, ZIP_DEFLATED)
    return Download("zip", "application/zip", held.getvalue())
