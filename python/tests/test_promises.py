"""What explain says that can be counted on, held against what the engine gives."""

from __future__ import annotations

from walzhik.explain import COUNT_ON
from walzhik.promises import falls, furthest, index_line, most_moved, promises, reaches
from walzhik.sheet import Sheet, lists_of

from running import ROOT, Run

BEAM = Sheet([0, 1, 2, 4], [1, 2, 3], [-1, 1], [(9, 0), (7, 1), (7, 2), (5, 3), (3, 3), (1, 4), (0, 9)])


def test_a_coefficient_reaches_its_own_stretches_alone() -> None:
    """One coefficient changed: the engine's values change on the stretches named, and on no other."""
    positions = list(range(0, 4 * 256 + 1, 16))
    before = BEAM.curve().values(positions)
    for reach in reaches(BEAM.degrees, BEAM.orders):
        pairs = [(early + 1000 * (row == reach.row), late) for row, (early, late) in enumerate(BEAM.pairs)]
        after = Sheet(BEAM.breaks, BEAM.degrees, BEAM.orders, pairs).curve().values(positions)
        moved = [position for position, one, other in zip(positions, before, after) if tuple(one) != tuple(other)]
        assert moved
        assert BEAM.breaks[reach.first] * 256 <= min(moved) <= max(moved) <= BEAM.breaks[reach.last + 1] * 256


def test_the_move_by_one_thousandth_is_reached() -> None:
    one = Sheet([0, 1, 3], [2, 2], [1], [(8, 9), (2, 3), (7, 8), (3, 4)])
    early, late = one.curve().values([256])[0]
    assert late - early == most_moved(one.orders) == 257


def test_falling_coefficients_are_named() -> None:
    words = "\n".join(promises(BEAM))
    assert falls([9, 7, 7, 0]) and not falls([0, 1])
    assert "The earlywood never rises: " in words and "The latewood never falls: " in words
    smooth = Sheet([0, 1, 2], [3, 3], [2], [(5, 5), (4, 4), (3, 3), (2, 2), (1, 1)])
    assert " never " not in "\n".join(promises(smooth))
    jump = Sheet([0, 1, 3], [1, 2], [-1], [(2, 1), (1, 2), (9, 0), (8, 1), (8, 7)])
    words = "\n".join(promises(jump))
    assert (
        "The earlywood never rises except at a scar" in words and "The latewood never falls except at a scar" in words
    )
    mixed = Sheet([0, 1], [2], [], [(2, 1), (1, 2), (9, 0)])
    assert " never " not in "\n".join(line for line in promises(mixed) if "refused" not in line)


def test_a_ring_has_one_line_and_equal_coefficients_a_number() -> None:
    words = promises(Sheet([0, 5, 9], [2, 2], [1], [(7, 7)] * 4))
    assert "The curve is exactly 0.007 mm everywhere: its coefficients are equal." in words
    assert not any("wood" in line for line in words)


def test_an_index_is_within_one_up_to_the_width_named() -> None:
    """For widths up to it 125 w < 8 m^2, and not for the next one."""
    for least in (1, 4, 5, 40, 300, 1249):
        line = index_line("earlywood", [least, least + 1])
        assert line is not None
        width = round(1000 * float(line.split()[-2]))
        assert 125 * width < 8 * least**2 <= 125 * (width + 1)
    assert index_line("earlywood", [0, 5]) is None
    assert "99.999 mm" in str(index_line("earlywood", [1_000_000]))


def test_the_closeness_of_a_sheet() -> None:
    assert furthest(BEAM) == 2.5
    assert furthest(Sheet([0, 1], [5], [], [])) == 3


def test_explain_says_them_of_accepted_sheets_alone(run: Run) -> None:
    lines = run("explain", "examples/sheets/w1.sheet").out.splitlines()
    lists = lists_of((ROOT / "examples/sheets/w1.sheet").read_bytes())
    assert lists is not None
    assert lines[2:] == [COUNT_ON, *(f"- {line}" for line in promises(lists))]
    assert COUNT_ON not in run("explain", "examples/refusals/refused_5.sheet").out
