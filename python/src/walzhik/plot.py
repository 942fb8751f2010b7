"""Pictures of a curve, of measured widths behind it and of ring indices below, by matplotlib. The curve, its values and the indices are
the engine's; a picture only draws them, and is not proved. The same input gives the same bytes with the same matplotlib.
"""

from __future__ import annotations

import io
import warnings
from collections.abc import Iterator, Sequence
from contextlib import contextmanager
from typing import TYPE_CHECKING, Any, Literal, NamedTuple

import numpy as np

from ._outline import drawn_parts, extent, millimetres, outline, part_name
from .limits import PER_MM, SCAR, UNIT, WOOD

if TYPE_CHECKING:
    from matplotlib.axes import Axes
    from matplotlib.figure import Figure
    from numpy.typing import NDArray

    from ._engine import Wholes
    from .curve import Curve, Wood

Ending = Literal["svg", "png", "pdf"]
ENDINGS: tuple[Ending, ...] = ("svg", "png", "pdf")

# Colours that the colour-blind tell apart (Okabe and Ito).
BLUE, VERMILION, GREEN, PURPLE, SKY, ORANGE = "#0072B2", "#D55E00", "#009E73", "#CC79A7", "#56B4E9", "#E69F00"
BLACK, DARK, GREY, PALE = "#000000", "#444444", "#999999", "#e4e4e4"
CURVE_COLOURS: dict[str | None, str] = {None: BLACK, WOOD[0]: BLUE, WOOD[1]: VERMILION}
SERIES_COLOURS: dict[str | None, str] = {None: BLUE, WOOD[0]: BLUE, WOOD[1]: VERMILION}
DASHES: dict[str | None, Any] = {None: "-", WOOD[0]: "-", WOOD[1]: (0, (6, 3))}
MARKS: dict[str | None, str] = {None: "o", WOOD[0]: "o", WOOD[1]: "s"}
MORE = (GREEN, ORANGE, SKY, PURPLE, VERMILION)  # for further series of one part
MOST_SERIES = len(MORE) + 1  # of one part that can be told apart
FONT = "DejaVu Sans"
STYLE = {
    "font.family": FONT,
    "font.size": 9,
    "svg.fonttype": "path",
    "svg.hashsalt": "walzhik",
    "path.simplify": False,
    "axes.spines.top": False,
    "axes.spines.right": False,
    "axes.edgecolor": DARK,
    "legend.frameon": False,
}
METADATA: dict[Ending, dict[str, None]] = {
    "svg": {"Date": None, "Creator": None},
    "png": {"Software": None},
    "pdf": {"CreationDate": None, "Creator": None, "Producer": None},
}
CURVE_LINE, THIN = 2.0, 0.8
LINE_ALPHA = 0.6  # of the line between rings, so that the curve stands out
PAD = 0.06  # inches around a panel
DOTS = 150  # an inch, of PNG
WIDE, NARROW = 8.4, 4.1  # inches
CURVE_HEIGHT, NARROW_HEIGHT, INDEX_HEIGHT = 3.6, 2.7, 1.7
MOST_MARKS, MOST_LABELS = 100, 10  # across a wide picture
CURVES, SERIES, ABSENT, LOWS, SCARS, JOINS = range(6)  # the order of a legend
WIDE_LETTERS, NARROW_LETTERS, HANDLE_LETTERS = 108, 46, 7  # of a legend's row, and of a line or mark in it
TITLE_SIZE = 10
MINUS = "\N{MINUS SIGN}"
DECADE = 10
ON_CURVE = 1_000  # the index of a ring as wide as the curve
HEADROOM = 1.06


class Measured(NamedTuple):
    """A series to draw.

    Attributes
    ----------
    name : str
    first : int
        The ring of the first width, counted as the curve's breakpoints are.
    widths : array_like of int
        Thousandths of a millimetre; 0 is an absent ring.
    wood : {"earlywood", "latewood"}, optional
        The part that was measured; left out for the whole ring.
    """

    name: str
    first: int
    widths: Wholes
    wood: Wood | None = None


@contextmanager
def _style() -> Iterator[None]:
    """matplotlib's own settings with these on top, whatever a user's are."""
    import matplotlib

    with matplotlib.rc_context(), warnings.catch_warnings():
        warnings.filterwarnings("ignore", message="Glyph .* missing from")  # `lacking` says which
        matplotlib.rcdefaults()
        matplotlib.rcParams.update(STYLE)
        yield


def lacking(text: str) -> str:
    """The characters of a text that the pictures' font lacks, each once; they are drawn as empty boxes.

    Examples
    --------
    >>> lacking("Eiche"), len(lacking("\N{HANGUL SYLLABLE GA}\N{HANGUL SYLLABLE GA}"))
    ('', 1)
    """
    from matplotlib.font_manager import findfont, get_font

    drawn = get_font(findfont(FONT)).get_charmap()
    return "".join(dict.fromkeys(letter for letter in text if ord(letter) not in drawn and letter != "\n"))


def picture(
    curve: Curve,
    measured: Sequence[Measured] = (),
    *,
    parts: Sequence[Wood | None] | None = None,
    title: str = "",
    rings: str = "ring",
    at: Wholes = (),
    is_narrow: bool = False,
) -> Figure:
    """Draw a curve, with measured widths behind it and their indices below.

    Parameters
    ----------
    curve : Curve
    measured : sequence of Measured
    parts : sequence of {"earlywood", "latewood", None}, optional
        The curves to draw; both, or that of the whole ring, where it is left out.
    title : str
    rings : str
        What the rings are called: ``"ring"`` or ``"year"``.
    at : sequence of int
        Positions whose values are looked at: one of zero or less is circled.
    is_narrow : bool
        Half the width, to stand beside another picture.

    Returns
    -------
    matplotlib.figure.Figure

    Raises
    ------
    Refused
        If the engine refuses a ring or a width.

    Examples
    --------
    >>> from walzhik import Curve, Space
    >>> curve = Curve(Space([0, 60], [2], []), [2400, 1000, 900])
    >>> made = picture(curve, [Measured("OAK", 0, [2500, 0, 2300])], title="Oak")
    >>> [panel.get_ylabel() for panel in made.axes]
    ['width, mm', 'index, thousandths']
    """
    from matplotlib.figure import Figure

    chosen = drawn_parts(curve) if parts is None else list(parts)
    with _style():
        heights = [NARROW_HEIGHT if is_narrow else CURVE_HEIGHT] + [INDEX_HEIGHT] * bool(measured)
        made = Figure(figsize=(NARROW if is_narrow else WIDE, sum(heights)), layout="constrained")
        made.get_layout_engine().set(w_pad=PAD, h_pad=PAD)
        panels = np.atleast_1d(made.subplots(len(heights), 1, sharex=True, height_ratios=heights)).tolist()
        legend, colours = _Legend(), _series_colours(measured)
        _draw_breakpoints(panels, curve, legend)
        _draw_widths(panels[0], curve, measured, colours, legend)
        _draw_curves(panels[0], curve, chosen, at, legend)
        _scale_widths(panels[0], curve, chosen, measured)
        if measured:
            _draw_indices(panels[1], curve, measured, colours)
        legend.draw(panels[0], is_narrow)
        _label(made, panels, curve, title, rings, is_narrow)
    return made


def rendered(made: Figure, ending: Ending) -> bytes:
    """The picture as a file's bytes.

    Examples
    --------
    >>> from walzhik import Curve, Space
    >>> rendered(picture(Curve(Space([0, 60], [1], []), [2400, 900])), "png")[1:4]
    b'PNG'
    """
    file = io.BytesIO()
    with _style():
        made.savefig(file, format=ending, dpi=DOTS, metadata=METADATA[ending])
    return file.getvalue()


class _Legend:
    """What each kind of line and mark is: curves, series, then the others, each once."""

    def __init__(self) -> None:
        self.entries: dict[tuple[int, str], Any] = {}

    def add(self, kind: int, words: str, handle: Any) -> None:
        self.entries.setdefault((kind, words), handle)

    def draw(self, panel: Axes, is_narrow: bool) -> None:
        """A row above the panel, or as many as are needed."""
        kinds = sorted(self.entries, key=lambda entry: entry[0])
        room = NARROW_LETTERS if is_narrow else WIDE_LETTERS
        lengths = [len(words) + HANDLE_LETTERS for _, words in kinds]
        columns = len(kinds) if sum(lengths) <= room else max(1, room // max(lengths))
        above = {"loc": "lower center", "bbox_to_anchor": (0.5, 1.0), "borderaxespad": 0.2, "columnspacing": 1.4}
        handles = [self.entries[kind] for kind in kinds]
        drawn = panel.legend(handles, list(map(str, range(len(kinds)))), ncols=columns, handlelength=2.4, **above)
        for text, (_, words) in zip(
            drawn.get_texts(), kinds
        ):  # a label of its own could begin with _ or hold a formula
            text.set_text(words)
            text.set_parse_math(False)


def _unclipped(panel: Axes, rings: Any, heights: Any, **style: Any) -> Any:
    """Marks that are whole on the panel's edge too, and take no part in the layout."""
    (marks,) = panel.plot(rings, heights, linestyle="none", clip_on=False, **style)
    marks.set_in_layout(False)
    return marks


# The curve.


def _draw_breakpoints(panels: list[Axes], curve: Curve, legend: _Legend) -> None:
    """A dotted line at each join, a solid one at each discontinuity."""
    for panel in panels:
        panel.grid(axis="y", color=PALE, linewidth=THIN)
        panel.set_axisbelow(True)
        for ring, order in zip(curve.space.breaks[1:-1].tolist(), curve.space.orders.tolist()):
            if order == SCAR:
                legend.add(SCARS, "scar", panel.axvline(ring, color=PURPLE, linewidth=1.6, zorder=1))
            else:
                dots = (0, (1, 3))
                legend.add(JOINS, "join", panel.axvline(ring, color=GREY, linewidth=THIN, linestyle=dots, zorder=1))


def _draw_curves(panel: Axes, curve: Curve, parts: Sequence[Wood | None], at: Wholes, legend: _Legend) -> None:
    """The curve of each part as one path, and a circle where a value is zero or less."""
    from matplotlib.lines import Line2D
    from matplotlib.patches import PathPatch
    from matplotlib.path import Path

    positions = np.unique(np.asarray(at, dtype=np.int32))
    for wood in parts:
        shape, name = outline(curve, wood), part_name(wood)
        line = {"linestyle": DASHES[wood], "linewidth": CURVE_LINE}
        path = Path(np.array(shape.points), shape.codes)
        gid = f"curve-{name.replace(' ', '-')}"
        panel.add_patch(
            PathPatch(path, facecolor="none", edgecolor=CURVE_COLOURS[wood], capstyle="butt", gid=gid, zorder=4, **line)
        )
        words = "growth curve" if wood is None else name
        legend.add(CURVES, words, Line2D([], [], color=CURVE_COLOURS[wood], **line))
        values = millimetres(curve, positions)[:, curve.side(wood)]
        low = values <= 0
        if low.any():
            circle = {"marker": "o", "markersize": 7, "markerfacecolor": "none", "color": BLACK}
            legend.add(LOWS, "low", _unclipped(panel, positions[low] / UNIT, values[low], zorder=5, **circle))


def _scale_widths(panel: Axes, curve: Curve, parts: Sequence[Wood | None], measured: Sequence[Measured]) -> None:
    """From zero, or below the curve where it goes below, to a little above everything."""
    ends = [extent(curve, wood) for wood in parts]
    least = min(0.0, *(end[0] for end in ends))
    widest = [max(each.widths, default=0) / PER_MM for each in measured]
    greatest = max(0.0, *(end[1] for end in ends), *widest)
    panel.set_ylim(least * HEADROOM, greatest * HEADROOM or 1.0)
    if least < 0:
        panel.axhline(0.0, color=DARK, linewidth=THIN, zorder=1)


# Measured rings.


def _series_colours(measured: Sequence[Measured]) -> list[str]:
    """A colour for each series: its part's for the first of a part, others after it."""
    seen: dict[str | None, int] = {}
    colours = []
    for each in measured:
        place = seen[each.wood] = seen.get(each.wood, -1) + 1
        colours.append(SERIES_COLOURS[each.wood] if place == 0 else MORE[(place - 1) % len(MORE)])
    return colours


def _draw_rings(panel: Axes, curve: Curve, each: Measured, heights: NDArray[np.float64], colour: str, gid: str) -> Any:
    """Numbers at rings with a thin line between neighbours, not across a discontinuity or a missing number; the marks, thinned where
    they are many, are given back."""
    rings = each.first + np.arange(len(heights))
    scars = curve.space.breaks[1:-1][curve.space.orders == SCAR]
    cuts = np.flatnonzero(np.isin(rings, scars)) + 1
    line = np.insert(rings.astype(float), cuts, np.nan), np.insert(heights, cuts, np.nan)
    thin = {"color": colour, "linewidth": THIN, "linestyle": DASHES[each.wood], "alpha": LINE_ALPHA}
    panel.plot(*line, zorder=2, gid=gid, **thin)
    shown = ~np.isnan(heights) & (rings % _mark_step(len(heights)) == 0)
    face = colour if MARKS[each.wood] == "o" else "white"
    style = {"marker": MARKS[each.wood], "markersize": 2.8, "markerfacecolor": face, "markeredgewidth": 0.7}
    style["color"] = colour
    return _unclipped(panel, rings[shown], heights[shown], zorder=3, **style)


def _mark_step(rings: int) -> int:
    """Which of so many rings get a mark: every one, or every so manieth, which the legend tells."""
    return _round_step(rings / MOST_MARKS)


def _draw_widths(panel: Axes, curve: Curve, measured: Sequence[Measured], colours: list[str], legend: _Legend) -> None:
    """The widths, and a cross on the axis for each absent ring."""
    for place, (each, colour) in enumerate(zip(measured, colours)):
        widths = np.asarray(each.widths, dtype=float) / PER_MM
        heights = np.where(widths == 0, np.nan, widths)
        step = _mark_step(len(heights))
        name = each.name if step == 1 else f"{each.name} (a mark every {step} rings)"
        legend.add(SERIES, name, _draw_rings(panel, curve, each, heights, colour, f"widths-{place}"))
        absent = each.first + np.flatnonzero(widths == 0)
        if absent.size:
            style = {"marker": "x", "color": BLACK, "markersize": 5, "markeredgewidth": 1.2}
            legend.add(ABSENT, "absent", _unclipped(panel, absent, np.zeros(absent.size), zorder=5, **style))


def _draw_indices(panel: Axes, curve: Curve, measured: Sequence[Measured], colours: list[str]) -> None:
    """The engine's indices, with a line where a ring is as wide as the curve."""
    panel.axhline(ON_CURVE, color=DARK, linewidth=THIN, zorder=1)
    greatest = ON_CURVE
    for place, (each, colour) in enumerate(zip(measured, colours)):
        indices = curve.indices(each.widths, each.first, each.wood)
        heights = np.where(indices < 0, np.nan, indices.astype(float))
        _draw_rings(panel, curve, each, heights, colour, f"indices-{place}")
        greatest = max(greatest, int(indices.max(initial=0)))
    panel.set_ylim(0, greatest * HEADROOM)


# Words and scales.


def _round_step(least: float) -> int:
    """The smallest of 1, 2, 5, 10, 20, 50 .. that is not below.

    >>> [_round_step(least) for least in (0.2, 2, 3, 11, 40)]
    [1, 2, 5, 20, 50]
    """
    step = 1
    while step < least:
        step = step * 5 // 2 if str(step).startswith("2") else step * 2
    return step


def _label(made: Figure, panels: list[Axes], curve: Curve, title: str, rings: str, is_narrow: bool) -> None:
    """Title and axes: rings as whole numbers, decades where there is room."""
    from matplotlib.ticker import FixedLocator, FuncFormatter, MultipleLocator, NullLocator

    first, last = int(curve.space.breaks[0]), int(curve.space.breaks[-1])
    step = _round_step((last - first) / (MOST_LABELS // 2 if is_narrow else MOST_LABELS))
    lower = panels[-1]
    lower.set_xlim(first, last)
    lower.xaxis.set_major_locator(MultipleLocator(step))
    lower.xaxis.set_major_formatter(FuncFormatter(lambda ring, _: f"{ring:.0f}".replace("-", MINUS)))
    decades = np.arange(-(-first // DECADE) * DECADE, last + 1, DECADE)
    is_room = step > DECADE and len(decades) <= MOST_MARKS
    lower.xaxis.set_minor_locator(FixedLocator(decades) if is_room else NullLocator())
    lower.set_xlabel(rings)
    panels[0].set_ylabel("width, mm")
    if len(panels) > 1:
        panels[1].set_ylabel("index, thousandths")
    if title:
        made.suptitle(title, fontsize=TITLE_SIZE).set_parse_math(False)
