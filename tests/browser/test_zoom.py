"""Years in sight, and what is read at one of them."""

from __future__ import annotations

import numpy as np

from walzhik import tucson

from .curves import agrees, curve_of
from .page import CTRL, SHIFT, Page
from .stage import BEAM, OAK, ROOT, on


def width(page: Page) -> float:
    first, last = page.rings_in_sight()
    return last - first


def pixels_per_ring(page: Page) -> float:
    return float(page.script("return document.querySelector('path.curve').getScreenCTM().a"))


def test_zoom_by_buttons(page: Page) -> None:
    assert page.rings_in_sight() == (1703, 1802)
    page.press("zoom-in")
    page.until(lambda: 60 < width(page) < 70, "the button did not zoom")
    agrees(page)
    before = page.rings_in_sight()
    page.press("later")
    page.until(lambda: page.rings_in_sight()[0] > before[0], "the button did not move along")
    page.press("later", "later")
    assert page.rings_in_sight()[1] == 1802, "it goes past the last ring"
    page.press("earlier", "earlier", "earlier", "earlier")
    assert page.rings_in_sight()[0] == 1703
    page.press("zoom-out")
    page.until(lambda: page.rings_in_sight() == (1703, 1802), "the button did not zoom out")
    page.press("zoom-in", "whole")
    page.until(lambda: page.rings_in_sight() == (1703, 1802), "not all years are in sight")


def test_zoom_by_keys(page: Page) -> None:
    page.focus_handle("break-2")
    page.keys("+")
    page.keys("+")
    page.until(lambda: width(page) < 50, "the key did not zoom")
    before = page.rings_in_sight()
    page.keys("\ue00f")
    page.until(lambda: page.rings_in_sight()[0] > before[0], "Page Down did not move along")
    page.keys("0")
    page.until(lambda: page.rings_in_sight() == (1703, 1802), "0 did not show all")
    page.write("coefficient-0-earlywood", "0")
    assert page.value("coefficient-0-earlywood") == 15000, "a key of the picture is taken from a field"


def test_zoom_by_the_wheel(page: Page) -> None:
    x, y = page.ring_spot(1780, 0.3)
    page.wheel(x, y, -300, CTRL)
    page.until(lambda: width(page) < 90, "Ctrl and the wheel did not zoom")
    assert abs(page.ring_spot(1780)[0] - x) < 1.5, "the ring under the pointer has moved"
    before = page.rings_in_sight()
    page.wheel(x, y, -100, SHIFT)
    page.until(lambda: page.rings_in_sight()[0] < before[0], "Shift and the wheel did not move along")
    agrees(page)


@on(["--curve", BEAM])
def test_a_pixel_is_at_most_a_ring(page: Page) -> None:
    for _ in range(20):
        page.press("zoom-in")
    page.until(lambda: pixels_per_ring(page) >= 1, "a pixel is more than a ring")
    assert 9 < width(page) < 11


def test_handles_out_of_sight_are_reached(page: Page) -> None:
    page.focus_handle("break-1")
    for _ in range(6):
        page.keys("+")
    page.until(lambda: width(page) < 15, "the keys did not zoom")
    hidden = page.script("return [...document.querySelectorAll('.handle.outside')].map((each) => each.dataset.control)")
    assert "break-4" in hidden
    page.script("document.getElementById('whole').click()")
    page.focus_handle("break-3")
    page.keys("+")
    page.keys("+")
    page.keys("+")
    page.keys("\ue013")
    page.until(lambda: page.focused().startswith("Breakpoint 4"), "the neighbour has not the focus")
    assert page.rings_in_sight()[0] <= 1802 <= page.rings_in_sight()[1] + 0.01, "the neighbour is out of sight"


def test_a_hand_moves_the_years_along(page: Page) -> None:
    page.press("zoom-in", "zoom-in")
    page.until(lambda: width(page) < 50, "the button did not zoom")
    before = page.rings_in_sight()
    x, y = page.ring_spot((before[0] + before[1]) / 2, 0.9)
    page.mouse("mouseMoved", x, y)
    page.mouse("mousePressed", x, y)
    page.nudge(-20, 0, 4)
    page.let_go()
    page.until(lambda: page.rings_in_sight()[0] > before[0] + 1, "the hand did not move the years")
    assert abs(width(page) - (before[1] - before[0])) < 0.01 and not page.is_usable("undo")
    agrees(page)


def words_at(page: Page, year: int) -> list[str]:
    """What must be read at a year, from the engine."""
    widths = {each.name: each.widths for each in tucson.read(ROOT / OAK)}
    curve, made = curve_of(page), []
    for wood, name in (("earlywood", "ROOF04E"), ("latewood", "ROOF04L")):
        measured = int(widths[name][year - 1703])
        values, indices = curve.rings([measured], year, "earlywood" if wood == "earlywood" else "latewood")
        width_words = f"width {measured / 1000:.3f} mm" if measured else "absent ring"
        index = f"index {indices[0]}" if measured else "no index"
        made.append(f"Year {year}, {wood}, {name}: {width_words}, curve {values[0] / 256000:.3f} mm, {index}")
    return made


def lines(page: Page) -> list[str]:
    found = page.script("return [...document.querySelectorAll('#readout .line')].map((each) => each.textContent)")
    return [str(each) for each in found]


def test_readout_under_the_pointer(page: Page) -> None:
    for year in (1703, 1723, 1748, 1751, 1802):
        page.mouse("mouseMoved", *page.ring_spot(year, 0.25))
        page.until(lambda: lines(page) == words_at(page, year), f"{lines(page)} is not {words_at(page, year)}")
    page.mouse("mouseMoved", 5, 5)
    page.until(lambda: not any(each.strip() for each in lines(page)), "the words stay when the pointer has gone")


def test_readout_at_the_handle(page: Page) -> None:
    page.key("coefficient-3-earlywood", "ArrowUp")
    ring = int(np.floor(1731.5 + 0.5))
    page.until(lambda: lines(page) == words_at(page, ring), "the ring of the handle is not read")
    described = page.script("return document.activeElement.getAttribute('aria-describedby')")
    assert described == "readout", "a screen reader is not told what is there"
    page.key("break-1", "ArrowRight")
    page.until(lambda: lines(page) == words_at(page, 1716), "the ring of the breakpoint is not read")


@on(["--curve", BEAM])
def test_readout_of_a_curve_alone(page: Page) -> None:
    first = page.lists().breaks[0]
    page.focus_handle("break-0")
    value = curve_of(page).values([256 * first])[0]
    page.until(
        lambda: lines(page)[0] == f"Ring {first}, earlywood: curve {value[0] / 256000:.3f} mm", "nothing is read"
    )


def test_readout_says_where_there_is_no_curve(page: Page) -> None:
    page.type("break-4", "1795")
    agrees(page)
    page.mouse("mouseMoved", *page.ring_spot(1800, 0.25))
    page.until(lambda: "Year 1800" in lines(page)[0], "the year is not read")
    assert all("no curve, no index" in each for each in lines(page))
    page.type("break-4", "9000")
    page.until(page.is_stale, "more rings than a part can have are not refused")
    page.mouse("mouseMoved", *page.ring_spot(1720, 0.25))
    page.until(lambda: "(the last good curve)" in lines(page)[0], "it is not said whose numbers these are")


def test_handle_and_row_are_marked_together(page: Page) -> None:
    marked = "return [...document.querySelectorAll('.marked')].map((each) => each.dataset.control ?? each.cells[0].textContent)"
    page.focus_handle("coefficient-3-latewood")
    assert page.script(marked) == ["coefficient-3-latewood", "3"]
    page.driver.find_element("id", "break-2").click()
    page.until(lambda: page.script(marked) == ["break-2", "Join 1"], "the handle is not marked with its row")
    page.mouse("mouseMoved", *page.spot("coefficient-1-earlywood"))
    page.until(
        lambda: "coefficient-1-earlywood" in page.script(marked) and "1" in page.script(marked), "by the pointer"
    )
