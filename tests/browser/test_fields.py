"""Numbers that are typed, refusals beside their controls, and what is typed while answers come."""

from __future__ import annotations

from .curves import agrees, refusal_of
from .page import Page


def test_refusal(page: Page) -> None:
    before = page.path("earlywood")
    page.choose("order-0", "2")
    page.until(lambda: page.is_invalid("order-0"), "the order that is too high is not marked")
    error = refusal_of(page)
    assert error.number == 5 and error.words in page.words_of("order-0") and error.remedy in page.words_of("order-0")
    assert page.is_beside("order-0") and error.words in page.text("status")
    assert page.is_stale() and page.path("earlywood") == before and page.stroke("earlywood") == "rgb(117, 117, 117)"
    page.press("undo")
    page.until(lambda: not page.is_stale() and not page.is_invalid("order-0"), "the refusal stays after undo")
    assert page.stroke("earlywood") == "rgb(0, 114, 178)" and page.lists().orders[0] == 1
    page.type("break-1", "1760")
    page.until(lambda: page.is_invalid("break-2"), "a breakpoint past its neighbour is not marked")
    assert refusal_of(page).number == 3 and page.is_stale()
    page.press("undo")
    agrees(page)


def test_typing(page: Page) -> None:
    page.type("coefficient-3-earlywood", "12.5")
    page.until(lambda: page.is_invalid("coefficient-3-earlywood"), "half a thousandth is not refused")
    assert "whole number" in page.words_of("coefficient-3-earlywood")
    page.type("coefficient-3-earlywood", "-3000")
    page.until(lambda: page.is_invalid("series-earlywood"), "a ring over a curve below zero is not told")
    assert "no=14" in page.words_of("series-earlywood") and page.low("earlywood") and not page.low("latewood")
    assert page.count('path[data-fault="earlywood"]') == 1, "the rings without an index are not marked"
    assert "Coefficient 3 (earlywood) is -3000" in page.text("promises") and not page.is_stale()
    page.press("undo")
    page.until(lambda: not page.low("earlywood") and not page.is_invalid("series-earlywood"), "the low places stay")
    page.type("break-4", "1795")
    page.until(lambda: "no=7" in page.words_of("series-latewood"), "rings past the curve are not told")
    page.press("undo")
    agrees(page)


def index_rings(page: Page, wood: str) -> int:
    """How many rings the line of indices goes through."""
    path = page.script(f"return document.querySelector('path.rings.index.{wood}').getAttribute('d')")
    return str(path).count("M") + str(path).count("L")


def test_rings_outside_the_curve_alone_have_no_index(page: Page) -> None:
    all_rings = index_rings(page, "earlywood")
    page.type("break-4", "1795")
    page.until(lambda: page.count('path[data-fault="earlywood"]') == 1, "the rings outside are not marked")
    assert index_rings(page, "earlywood") == all_rings - 7, "other rings than those outside have lost their index"
    assert page.script("return document.querySelector('[data-fault=earlywood]').dataset.count") == "7"
    said = page.text("status")
    assert "ROOF04E: 7 of 100 rings have no index (year 1796 to 1802)" in said and "ROOF04L: 7 of 100" in said
    assert page.script("return document.getElementById('status').getAttribute('role')") == "status"
    agrees(page)
    page.press("undo")
    page.until(lambda: page.text("status") == "", "the words stay")
    assert index_rings(page, "earlywood") == all_rings


def test_a_hand_is_not_disturbed(page: Page) -> None:
    page.key("break-1", "ArrowRight")
    page.until(lambda: page.value("break-1") == 1716, "the breakpoint did not move")
    page.write("coefficient-5-latewood", "1")
    page.script("document.getElementById('undo').click()")  # an answer comes while somebody types
    page.until(lambda: page.value("break-1") == 1715, "the breakpoint is not back")
    agrees(page, "earlywood")
    assert page.value("coefficient-5-latewood") == 5201, "what is being typed is lost"
    page.reload()
    page.focus("Split stretch 1")
    page.enter()
    page.until(lambda: len(page.lists().breaks) == 6, "the stretch is not split by the keyboard")
    assert page.focused() == "Split stretch 1", "the focus is lost"
    page.press("undo")
    page.until(lambda: len(page.lists().breaks) == 5, "the split is not undone")
    agrees(page)


def test_a_digit_that_is_typed_and_deleted_leaves_the_field_to_the_design(page: Page) -> None:
    page.write("coefficient-3-earlywood", "7")
    page.erase("coefficient-3-earlywood")
    page.key("coefficient-3-earlywood", "ArrowUp")
    page.until(lambda: page.value("coefficient-3-earlywood") == 1510, "the field keeps its old number")
    agrees(page)
    page.write("coefficient-3-earlywood", "7")
    page.script("document.getElementById('undo').click()")
    page.erase("coefficient-3-earlywood")
    page.until(lambda: not page.is_usable("undo"), "it is not undone")
    page.focus_handle("break-1")
    page.until(lambda: page.value("coefficient-3-earlywood") == 1500, "the field does not show the design")


def test_the_wheel_leaves_a_number_alone(page: Page) -> None:
    page.driver.find_element("id", "break-1").click()
    x, y = page.middle("break-1")
    page.wheel(x, y, 200)
    page.until(
        lambda: page.script("return scrollY + document.getElementById('lists').scrollTop") > 0, "it can't scroll"
    )
    assert page.value("break-1") == 1715, "the wheel has changed a number"
    agrees(page)


def test_reload(page: Page) -> None:
    page.type("coefficient-2-latewood", "777")
    agrees(page)
    page.reload()
    page.until(lambda: page.value("coefficient-2-latewood") == 777, "the curve is lost by a reload")
    agrees(page)
    page.press("undo")
    page.until(lambda: page.value("coefficient-2-latewood") == 760, "what was given is not behind it")
    agrees(page)
