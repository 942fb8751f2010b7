"""Pictures: the path of each curve is the one that the rational program's ordinates give, indices are the engine's, lines break at
scars and absent rings, the bytes do not depend on the day or on a user's settings, and the command says what can't be drawn."""

import io
import re
import sys
from fractions import Fraction
from pathlib import Path

import matplotlib
import numpy as np
import pytest

from walzhik import Curve, Space, cli, plot, sheet, tucson
from walzhik._outline import CUBIC, LINE, MOVE, QUADRATIC, outline
from walzhik.plot import Measured

ROOT = Path(__file__).resolve().parents[2]
EXAMPLES = ROOT / "examples"
sys.path.insert(0, str(ROOT / "tests" / "reference"))
from pieces import piece_outcome  # noqa: E402

SHEETS = [
    "beam",
    "growth",
    "low",
    "order_0",
    "order_1",
    "order_2",
    "roof",
    "step_1",
    "step_2",
    "step_3",
    "step_4",
    "w1",
]
CELLS = 5184
CODES = {1: LINE, 2: QUADRATIC, 3: CUBIC}
OAK = {series.name: series for series in tucson.read(EXAMPLES / "tucson" / "oak.rwl")}


def lists_of(name: str) -> sheet.Sheet:
    return sheet.read((EXAMPLES / "sheets" / f"{name}.sheet").read_bytes())


def roof_series() -> list[Measured]:
    early, late = OAK["ROOF04E"], OAK["ROOF04L"]
    return [
        Measured("ROOF04E", early.first, early.widths, "earlywood"),
        Measured("ROOF04L", late.first, late.widths, "latewood"),
    ]


@pytest.mark.parametrize("name", SHEETS)
@pytest.mark.parametrize("wood", ["earlywood", "latewood"])
def test_paths_are_those_of_the_rational_program(name: str, wood: str) -> None:
    """Each segment of degree 1 to 3 is one Bezier command with the model's ordinates, evenly spaced."""
    lists = lists_of(name)
    made = outline(lists.curve(), wood)  # type: ignore[arg-type]
    vertices = list(zip(made.codes, made.points))
    space_lists = tuple(list(each) for each in (lists.breaks, lists.degrees, lists.orders))
    coefs = [number for pair in lists.pairs for number in pair]
    for segment, degree in enumerate(lists.degrees):
        start, end = lists.breaks[segment : segment + 2]
        is_apart = segment == 0 or lists.orders[segment - 1] == -1
        piece = piece_outcome(wood, space_lists, coefs, segment, CELLS, CELLS).piece
        if piece is None:
            assert degree > 3
            while vertices and vertices[0][1][0] <= end and (vertices[0][0] != MOVE or vertices[0][1][0] < end):
                vertices.pop(0)
            continue
        expected = [
            (Fraction(start) + Fraction(place * (end - start), degree), ordinate / 1000)
            for place, ordinate in enumerate(piece.ordinates)
        ]
        if is_apart:
            assert vertices.pop(0) == (MOVE, tuple(map(float, expected[0])))
        for ring, height in expected[1:]:
            code, point = vertices.pop(0)
            assert code == CODES[degree]
            assert point == pytest.approx((float(ring), float(height)), rel=1e-15)
    assert vertices == []


@pytest.mark.parametrize("degree", [4, 5])
def test_degrees_that_have_no_piece_go_through_the_values(degree: int) -> None:
    """The chords are no tenth of a pixel away from the engine's values, and a scar's segment starts behind it."""
    space = Space([0, 100, 130], [degree, degree], [-1])
    curve = Curve(space, [3000, 100, 2900, 50, 2000, 700][: degree + 1] + [1500, 100, 1800, 90, 400, 600][: degree + 1])
    made = outline(curve, None)
    assert made.codes == ([MOVE] + [LINE] * 256) * 2
    assert [made.points[0][0], made.points[256][0], made.points[257][0], made.points[-1][0]] == [
        0,
        100,
        100 + 1 / 256,
        130,
    ]
    rings, heights = np.array(made.points).T
    for start, end in ((0, 256 * 100), (256 * 100 + 1, 256 * 130)):
        between = np.arange(start, end + 1, 8)
        exact = curve.values(between[:4096].astype(np.int32))[:, 0] / 256_000
        inside = (rings * 256 >= start) & (rings * 256 <= end)
        drawn = np.interp(between[:4096] / 256, rings[inside], heights[inside])
        pixels = plot.CURVE_HEIGHT * plot.DOTS / 3.0
        assert np.abs(drawn - exact).max() * pixels < 0.1


def test_indices_are_the_engines_and_lines_break() -> None:
    """The scar at 1748 counts with the wood before it; 1751 is absent."""
    curve, series = lists_of("roof").curve(), roof_series()
    upper, lower = plot.picture(curve, series, rings="year").axes
    lines = [line for line in lower.get_lines() if len(line.get_xdata()) > 90]
    for each, line in zip(series, lines[::2]):
        years, heights = line.get_xdata(), line.get_ydata()
        indices = curve.indices(each.widths, each.first, each.wood)
        present = ~np.isnan(heights)
        assert heights[present].tolist() == indices[indices >= 0].tolist()
        assert years[present].tolist() == [1703 + place for place in np.flatnonzero(indices >= 0)]
        gap = np.flatnonzero(np.isnan(heights)).tolist()
        assert gap == [1748 - 1703 + 1, 1751 - 1703 + 1]
    for each, line in zip(series, [line for line in upper.get_lines() if len(line.get_xdata()) > 90][::2]):
        widths = [width / 1000 for width in np.asarray(each.widths).tolist() if width]
        assert [height for height in line.get_ydata().tolist() if not np.isnan(height)] == widths
    crosses = [line for line in upper.get_lines() if line.get_marker() == "x"]
    assert [line.get_xdata().tolist() for line in crosses] == [[1751], [1751]]


def test_marks_are_thinned_and_years_are_years() -> None:
    curve = Curve(Space([100, 2000], [1], []), [900, 500])
    upper, lower = plot.picture(curve, [Measured("LONG", 101, [500] * 1800)], rings="year").axes
    line, marks = (each for each in upper.get_lines() if len(each.get_xdata()) > 1 and each.get_xdata()[0] > 100)
    assert len(line.get_xdata()) == 1800
    assert len(marks.get_xdata()) <= plot.MOST_MARKS and all(year % 10 == 0 for year in marks.get_xdata())
    assert lower.get_xlabel() == "year"
    assert [lower.xaxis.get_major_formatter()(year) for year in (1200, -50)] == ["1200", "\N{MINUS SIGN}50"]
    assert all(tick % 10 == 0 for tick in lower.xaxis.get_major_locator().tick_values(100, 2000))


def test_parts() -> None:
    curve = lists_of("roof").curve()
    drawn = {
        parts: [patch.get_gid() for patch in plot.picture(curve, parts=parts).axes[0].patches]
        for parts in (None, ("latewood",))
    }
    assert drawn == {None: ["curve-earlywood", "curve-latewood"], ("latewood",): ["curve-latewood"]}
    whole = Curve(Space([0, 60], [1], []), [2400, 900])
    assert [patch.get_gid() for patch in plot.picture(whole).axes[0].patches] == ["curve-whole-ring"]


def test_low_values_are_circled() -> None:
    lists = lists_of("low")
    (panel,) = plot.picture(lists.curve(), at=lists.at).axes
    values = lists.curve().values(lists.at)
    circled = sorted(x * 256 for line in panel.get_lines() if line.get_marker() == "o" for x in line.get_xdata())
    low = sorted(p for side in (0, 1) for p in {p for p, value in zip(lists.at, values[:, side]) if value <= 0})
    assert circled == low and low


def test_words_are_taken_as_they_are() -> None:
    made = plot.picture(Curve(Space([0, 3], [1], []), [900, 500]), [Measured("_$x$", 0, [1, 2])], title="$a_b$")
    made.canvas.draw()
    legend = made.axes[0].get_legend().get_texts()
    assert "_$x$" in [text.get_text() for text in legend]
    assert not any(text.get_parse_math() for text in (*legend, made._suptitle))


@pytest.mark.filterwarnings("error")
def test_a_series_without_widths_and_a_curve_of_one_ring() -> None:
    curve = Curve(Space([1700, 1701], [2], []), [[-1000, 5], [5, 900], [5, 0]])
    made = plot.picture(curve, [Measured("NONE", 1700, [], "latewood")], at=[256 * 1700], is_narrow=True)
    assert plot.rendered(made, "png").startswith(b"\x89PNG")


@pytest.mark.parametrize("ending", plot.ENDINGS)
def test_the_same_bytes_again(ending: plot.Ending) -> None:
    curve = lists_of("roof").curve()
    first = plot.rendered(plot.picture(curve, roof_series(), title="roof"), ending)
    with matplotlib.rc_context({"font.size": 22, "svg.fonttype": "none", "axes.facecolor": "red"}):
        assert plot.rendered(plot.picture(curve, roof_series(), title="roof"), ending) == first
    assert not any(word in first for word in (b"CreationDate", b"<dc:date>", b"Software"))


# The command.


def run(capfd: pytest.CaptureFixture[str], *arguments: object) -> tuple[int, str]:
    """The status, and what is said apart from how rings are counted, which test_counting.py looks at, and the remark on the units
    of the example, for which there is test_reading.py."""
    with pytest.raises(SystemExit) as ended:
        cli.main(["plot", *map(str, arguments)])
    assert isinstance(ended.value.code, int)
    told = capfd.readouterr().err.splitlines(keepends=True)
    said = [
        line
        for line in told
        if not line.startswith("Rings are ") and ": a series ends here in another unit" not in line
    ]
    return ended.value.code, "".join(said)


ROOF, RWL = EXAMPLES / "sheets" / "roof.sheet", EXAMPLES / "tucson" / "oak.rwl"
BOTH = ("--earlywood", "ROOF04E", "--latewood", "ROOF04L")


@pytest.mark.parametrize(
    ("name", "head"), [("a.svg", b"<?xml"), ("a.png", b"\x89PNG"), ("a.pdf", b"%PDF"), ("a.PNG", b"\x89PNG")]
)
def test_a_picture_by_its_ending(name: str, head: bytes, tmp_path: Path, capfd: pytest.CaptureFixture[str]) -> None:
    assert run(capfd, ROOF, RWL, *BOTH, "-o", tmp_path / name) == (0, "")
    assert (tmp_path / name).read_bytes().startswith(head)


def test_the_sheet_from_standard_input(
    monkeypatch: pytest.MonkeyPatch, tmp_path: Path, capfd: pytest.CaptureFixture[str]
) -> None:
    monkeypatch.setattr(sys, "stdin", io.TextIOWrapper(io.BytesIO(ROOF.read_bytes())))
    assert run(capfd, RWL, "--curve", "-", *BOTH, "--title", "roof", "-o", tmp_path / "a.svg") == (0, "")
    assert run(capfd, ROOF, RWL, *BOTH, "-o", tmp_path / "b.svg") == (0, "")
    assert (tmp_path / "a.svg").read_bytes() == (tmp_path / "b.svg").read_bytes()


@pytest.mark.parametrize(
    ("arguments", "status", "said"),
    [
        ([EXAMPLES / "refusals" / "refused_5.sheet"], 1, "no=5,0"),
        ([EXAMPLES / "sheets" / "none.sheet"], 2, "No such file"),
        ([ROOF, RWL], 2, "name the series of each"),
        ([ROOF, RWL, "--earlywood", "ROOF05"], 2, "No series is named ROOF05"),
        ([ROOF, RWL, "--series", "ROOF04E"], 2, "--earlywood or --latewood"),
        ([ROOF, RWL, "--earlywood", "ROOF04E", "--first", "1"], 1, "no=7,0"),
        ([ROOF, EXAMPLES / "refusals" / "refused_13.rwl", "--earlywood", "ROOF05"], 1, "no=13,2"),
        (
            [EXAMPLES / "sheets" / "low.sheet", EXAMPLES / "tucson" / "few.rwl", "--earlywood", "FEW", "--first", "-4"],
            1,
            "no=14,1",
        ),
        ([ROOF, "--earlywood", "ROOF04E"], 2, "no Tucson file"),
        ([], 2, "Give one sheet"),
        ([ROOF, ROOF], 2, "2 are given"),
        (["--curve", "-", "-"], 2, "once only"),
    ],
)
def test_what_cannot_be_drawn(
    arguments: list[object], status: int, said: str, tmp_path: Path, capfd: pytest.CaptureFixture[str]
) -> None:
    ended, told = run(capfd, *arguments, "-o", tmp_path / "a.svg")
    assert ended == status and said in told
    assert list(tmp_path.iterdir()) == []


def drawn(capfd: pytest.CaptureFixture[str], folder: Path, *arguments: object) -> str:
    """The SVG that the command draws."""
    assert run(capfd, *arguments, "-o", folder / "a.svg") == (0, "")
    return (folder / "a.svg").read_text(encoding="utf-8")


def test_what_the_options_draw(tmp_path: Path, capfd: pytest.CaptureFixture[str]) -> None:
    """SVG keeps the words of a picture as comments, and names its paths."""
    years = drawn(capfd, tmp_path, ROOF, RWL, "--earlywood", "ROOF04E")
    assert "<!-- year -->" in years and "<!-- ROOF04E -->" in years
    assert 'id="curve-earlywood"' in years and 'id="curve-latewood"' not in years
    assert 'id="curve-earlywood"' not in drawn(capfd, tmp_path, ROOF, "--wood", "latewood")
    growth = EXAMPLES / "sheets" / "growth.sheet"
    rings = drawn(capfd, tmp_path, growth, RWL, *BOTH, "--first", "1", "--title", "Rings")
    assert "<!-- ring -->" in rings and "<!-- Rings -->" in rings and "<!-- year -->" not in rings
    low = drawn(capfd, tmp_path, EXAMPLES / "sheets" / "low.sheet", "--title", "")
    assert "<!-- low -->" in low and "<!-- low -->" not in rings
    widths = [re.search('svg [^>]*width="([0-9.]+)', text) for text in (low, drawn(capfd, tmp_path, ROOF, "--narrow"))]
    assert [float(found[1]) for found in widths if found] == pytest.approx([plot.WIDE * 72, plot.NARROW * 72])


def test_endings(tmp_path: Path, capfd: pytest.CaptureFixture[str]) -> None:
    ended, told = run(capfd, ROOF, "-o", tmp_path / "a.jpg")
    assert ended == 2 and ".svg, .png or .pdf" in told
    assert run(capfd, ROOF, "--format", "svg", "-o", tmp_path / "a.jpg") == (0, "")


def test_too_many_series(tmp_path: Path, capfd: pytest.CaptureFixture[str]) -> None:
    flat = tmp_path / "flat.sheet"
    flat.write_bytes(b"breaks=0,60\ndegrees=1\norders=\ncoefs=900:900,800:800\nat=\n")
    many = tmp_path / "many.rwl"
    many.write_bytes(
        tucson.write([tucson.Series(f"S{place}", 0, np.array([5, 6])) for place in range(plot.MOST_SERIES + 1)])
    )
    ended, told = run(capfd, flat, many, "-o", tmp_path / "a.svg")
    assert ended == 2 and f"at most {plot.MOST_SERIES}" in told
    assert run(capfd, flat, many, "--series", "S1", "--series", "S2", "-o", tmp_path / "a.svg")[0] == 0


@pytest.mark.filterwarnings("error")
def test_letters_that_the_font_lacks_are_told(tmp_path: Path, capfd: pytest.CaptureFixture[str]) -> None:
    ended, told = run(capfd, ROOF, "--title", "Dach \u6728\u6728", "-o", tmp_path / "a.svg")
    assert ended == 0 and told == "The font has no \u6728 for the title: an empty box stands in its place.\n"
    assert run(capfd, ROOF, "--title", "Dachstuhl \u00df", "-o", tmp_path / "a.svg") == (0, "")
    assert run(
        capfd, ROOF, "--title", "two\nlines, and bytes that are no letters: \udcff", "-o", tmp_path / "a.svg"
    ) == (0, "")


def legend_of(curve: Curve, *measured: Measured) -> list[str]:
    return [text.get_text() for text in plot.picture(curve, measured).axes[0].get_legend().get_texts()]


def test_the_legend_says_what_is_drawn() -> None:
    curve = Curve(Space([0, 1800], [1], []), [900, 500])
    assert legend_of(curve, Measured("SHORT", 0, [500] * 100)) == ["growth curve", "SHORT"]
    marked = {200: 2, 500: 5, 1801: 20}
    for rings, step in marked.items():
        assert legend_of(curve, Measured("LONG", 0, [500] * rings)) == [
            "growth curve",
            f"LONG (a mark every {step} rings)",
        ]
