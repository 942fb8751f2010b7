"""Files that are saved and opened."""

from __future__ import annotations

import subprocess

from walzhik import sheet

from .curves import agrees
from .page import Page
from .stage import OAK, ROOT, on


def test_files(page: Page) -> None:
    made = page.saved("sheet", "roof.sheet")
    assert sheet.read(made).breaks == page.lists().breaks and list(sheet.read(made).pairs) == page.lists().pairs
    program = subprocess.run([ROOT / "target/bin/sheet"], input=made, stdout=subprocess.PIPE, check=True)
    assert page.saved("printout", "roof.printout") == program.stdout, "the printout is not the program's"
    assert page.saved("csv", "roof.csv").startswith(b"series,year,width_mm,curve_mm,index\nROOF04E,1703,")
    assert page.saved("png", "roof.png").startswith(b"\x89PNG")


@on([OAK])
def test_indices_without_a_sheet_have_a_name_of_their_own(page: Page) -> None:
    assert page.saved("rwl", "oak_ROOF04E_indices.rwl").startswith(b"ROOF04E")
    assert page.saved("csv", "oak_ROOF04E_indices.csv").startswith(b"series,year")


def test_ctrl_s_saves_the_sheet(page: Page) -> None:
    (page.downloads / "roof.sheet").unlink(missing_ok=True)
    page.type("coefficient-2-latewood", "777")
    agrees(page)
    page.shortcut("s")
    assert sheet.read(page.comes("roof.sheet")).pairs[2] == (2250, 777)


def test_ctrl_s_saves_what_is_being_typed(page: Page) -> None:
    (page.downloads / "roof.sheet").unlink(missing_ok=True)
    page.erase("coefficient-2-latewood")
    page.write("coefficient-2-latewood", "9")
    page.shortcut("s")
    assert sheet.read(page.comes("roof.sheet")).pairs[2] == (2250, 769), "the sheet has the number before"
    (page.downloads / "roof.sheet").unlink()
    page.write("coefficient-2-latewood", ".5")
    page.shortcut("s")
    page.until(lambda: page.is_invalid("coefficient-2-latewood"), "half a thousandth is not refused")
    assert not (page.downloads / "roof.sheet").exists()


def test_a_sheet_is_opened_in_the_page(page: Page) -> None:
    page.open_file(ROOT / "examples/sheets/step_4.sheet")
    lists = sheet.read((ROOT / "examples/sheets/step_4.sheet").read_bytes())
    page.until(lambda: page.lists().breaks == list(lists.breaks), "the sheet is not open")
    page.until(
        lambda: "step_4.sheet is open" in page.text("status") or "no index" in page.text("status"), "nothing is said"
    )
    agrees(page)
    assert page.lists().pairs == list(lists.pairs)
    page.press("undo")
    page.until(lambda: page.lists().breaks[0] == 1703, "it is not undone")
    page.open_file(ROOT / "examples/refusals/refused_5.sheet")
    page.until(lambda: page.is_invalid("open"), "a refused sheet is not told")
    assert "no=5,0" in page.words_of("open") and page.lists().breaks[0] == 1703
    agrees(page)
