"""One series after the other, series over each other, wood parts and back, and names that would be markup or formulas."""

from __future__ import annotations

from io import BytesIO
from zipfile import ZipFile

from walzhik import sheet, tucson

from .curves import agrees
from .page import Page
from .stage import HURTING, OAK, ROOT, computed, crowd, falling, hurting, on, pairs


@on(hurting)
def test_names(page: Page) -> None:
    assert page.text("names") == HURTING
    options = page.script(
        "return [...document.querySelectorAll('#series-ring option')].map((each) => each.textContent)"
    )
    assert options[1:] == ["<img src (1703 to 1802)", "<b>X</b> (1703 to 1802)"]
    assert page.count("img, b") == 0 and page.script("return document.title") != "hurt"
    assert "<img src" in page.text("legend")
    page.choose("series-ring", "1")
    page.until(lambda: "<b>X</b>" in page.text("legend"), "the other series is not shown")
    agrees(page, "ring")


@on(computed)
def test_a_name_that_a_spreadsheet_would_compute_is_told_before_the_table(page: Page) -> None:
    assert "=A1+A2 begins with =" in page.text("care")
    (page.downloads / "odd__A1_A2_indices.csv").unlink(missing_ok=True)
    page.press("save-csv")
    page.until(lambda: "Press again" in page.text("status"), "it is not told before the table is saved")
    assert not (page.downloads / "odd__A1_A2_indices.csv").exists()
    page.press("save-csv")
    assert page.comes("odd__A1_A2_indices.csv").splitlines()[1].startswith(b"=A1+A2,1703,")
    page.choose("series-ring", "1")
    page.until(lambda: page.text("care") == "", "a plain name is told")
    assert page.saved("csv", "odd_PLAIN_indices.csv").splitlines()[1].startswith(b"PLAIN,1703,")


@on(crowd)
def test_a_design_for_each_series(page: Page) -> None:
    first = page.lists()
    assert "1 of 5" in page.text("place") and not page.is_usable("previous")
    page.type("coefficient-0-ring", "4321")
    agrees(page, "ring")
    curve = page.path("ring")
    page.press("next")
    page.until(lambda: "2 of 5, 2 with a design" in page.text("place"), "the next series is not there")
    page.until(lambda: "SECOND" in page.text("legend"), "the next series is not drawn")
    agrees(page, "ring")
    assert page.lists().pairs != first.pairs and not page.is_usable("undo"), "it has no design of its own"
    assert page.path("ring", "ghost") == curve, "the curve of the series before is no ghost"
    page.key("coefficient-0-ring", "ArrowUp")
    page.until(lambda: page.is_usable("undo"), "the change is no step")
    second = page.lists().pairs
    page.press("previous")
    page.until(lambda: page.value("coefficient-0-ring") == 4321, "the first series' design is lost")
    page.press("undo")
    page.until(lambda: page.lists().pairs == first.pairs, "the first series' history is lost")
    page.press("redo", "next")
    page.until(lambda: page.lists().pairs == second, "the second series' design is lost")
    agrees(page, "ring")
    page.reload()
    page.until(lambda: page.lists().pairs == second, "the design is lost by a reload")
    page.press("previous")
    page.until(lambda: page.value("coefficient-0-ring") == 4321, "the other designs are lost by a reload")
    agrees(page, "ring")


@on(crowd)
def test_all_designs_are_saved(page: Page) -> None:
    for place in (2, 3, 4, 5):
        page.press("next")
        page.until(lambda: f"{place} of 5, {place} with a design" in page.text("place"), "the next series is not there")
    assert not page.is_usable("next")
    page.type("coefficient-0-ring", "4321")
    agrees(page, "ring")
    with ZipFile(BytesIO(page.saved("all", "crowd_all.zip"))) as packed:
        names = [f"{name}.sheet" for name in ("FIRST", "SECOND", "THIRD", "FOURTH", "FIFTH")]
        assert packed.namelist() == [*names, "crowd_indices.csv"]
        assert sheet.read(packed.read("FIFTH.sheet")).pairs[0] == (4321, 4321)
        assert len(packed.read("crowd_indices.csv").splitlines()) == 501
    assert "designs: 5" in page.text("status")


@on(falling)
def test_rings_are_counted_from_the_earliest_or_each_series_by_itself(page: Page) -> None:
    assert page.value("first") == 1 and page.chosen("counted") == "earliest"
    assert page.lists().breaks[0] == 5, "the later series does not keep its distance"
    assert page.widths("ring").startswith("M5 950")
    page.press("next")
    page.until(lambda: page.widths("ring").startswith("M1 800"), "the earlier series is not ring 1")
    assert page.lists().breaks[0] == 1
    page.press("previous")
    page.until(lambda: page.lists().breaks[0] == 5, "the later series is not there again")
    page.choose("counted", "each")
    page.until(lambda: page.widths("ring").startswith("M1 950"), "it is not counted by itself")
    page.press("template")
    page.until(lambda: page.lists().breaks[0] == 1, "the template does not follow")
    agrees(page, "ring")
    assert page.saved("csv", "falling_LATER_indices.csv").splitlines()[1].startswith(b"LATER,1805,0.950,")
    page.press("undo", "undo")
    page.until(lambda: page.chosen("counted") == "earliest", "it is not undone")
    page.type("first", "11")
    page.until(lambda: page.widths("ring").startswith("M15 950"), "another ring is not counted from")
    page.reload()
    page.until(lambda: page.widths("ring").startswith("M15 950"), "the counting is lost by a reload")


@on(pairs)
def test_pairs_of_wood_parts_follow_each_other(page: Page) -> None:
    page.press("parts")
    page.choose("series-earlywood", "0")
    page.choose("series-latewood", "1")
    page.until(lambda: "pair 1 of 2" in page.text("place"), "the pairs are not known by their names")
    page.press("next")
    page.until(lambda: "B10L" in page.text("legend") and "B10E" in page.text("legend"), "the next pair is not there")
    agrees(page)
    assert not page.is_usable("next") and "pair 2 of 2, 2 with a design" in page.text("place")
    with ZipFile(BytesIO(page.saved("all", "pairs_all.zip"))) as packed:
        assert packed.namelist() == ["A9E_A9L.sheet", "B10E_B10L.sheet", "pairs_indices.csv"]
    page.choose("series-latewood", "4")
    page.until(lambda: page.text("place") == "" and not page.is_usable("previous"), "odd names are taken for a pair")


@on(crowd)
def test_other_series_are_laid_under(page: Page) -> None:
    assert page.count("path.other") == 0
    page.click("#others")
    page.until(lambda: page.count("path.other") == 4, "the other series are not there")
    widths = tucson.read(ROOT / OAK)[1].widths
    points = page.script("return document.querySelector('[data-other=SECOND]').getAttribute('d')")
    assert points.startswith(f"M1703 {widths[0]}L1704 {widths[1]}")
    page.press("next")
    page.until(lambda: page.count('[data-other="FIRST"]') == 1, "the series before is not under it")
    assert page.count('[data-other="SECOND"]') == 0
    page.click("#others")
    page.until(lambda: page.count("path.other") == 0, "the other series stay")


def test_from_parts_to_the_whole_ring_and_back(page: Page) -> None:
    before = page.lists()
    page.press("whole-latewood")
    page.until(lambda: page.count("path.curve") == 1, "there is no curve of the whole ring")
    agrees(page, "ring")
    assert page.lists().pairs == [(late, late) for _, late in before.pairs] and "latewood's curve" in page.text(
        "status"
    )
    assert page.script("return document.getElementById('series-ring').selectedOptions[0].textContent").startswith(
        "ROOF04L"
    )
    page.press("parts")
    page.until(lambda: page.count("path.curve") == 2, "there is no curve for each part")
    page.press("whole-earlywood")
    page.until(lambda: page.count("path.curve") == 1, "there is no way back")
    assert page.lists().pairs == [(late, late) for _, late in before.pairs]
    assert not page.focus_is_lost()
    page.press("undo", "undo", "undo")
    page.until(lambda: page.count("path.curve") == 2 and page.lists().pairs == before.pairs, "it is not undone")
    agrees(page)


@on([OAK, "--earlywood", "ROOF04E"])
def test_a_wood_part_without_a_series_is_told_at_the_start(page: Page) -> None:
    assert "latewood" in page.text("status") and "copy" in page.text("status")
