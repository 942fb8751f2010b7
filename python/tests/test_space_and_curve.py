"""Spaces and curves as Python objects: what they take and give, what they refuse to guess, and that they copy nothing
that fits."""

from __future__ import annotations

import array
import pickle
import shutil
from pathlib import Path
from typing import Any

import numpy as np
import pytest
from hypothesis import given
from hypothesis import strategies as st

from walzhik import Curve, Refused, Space, _build, _engine
from walzhik.fit import fit
from walzhik.limits import UNIT
from walzhik.recover import recover
from walzhik.tucson import Series, read, write

SCARRED = ([0, 10, 30, 50], [3, 2, 1], [-1, 0])


def scarred() -> Curve:
    return Curve(Space(*SCARRED), [[900 + 10 * row, 400 - row] for row in range(8)])


def test_the_headers_declare_what_the_library_has() -> None:
    for header in _build.headers(_engine.root() / "include"):
        declared = [
            line.split("(")[0].split()[-1]
            for line in _build.declarations(header.read_text()).splitlines()
            if "(const" in line
        ]
        assert declared
        for name in declared:
            assert callable(getattr(_engine.library, name))
    assert (_engine.CELLS, _engine.SIDE, _engine.LARGEST_PLACE) == (5184, 72, 2**32 - 1)


def test_headers_stand_behind_those_that_they_include(tmp_path: object) -> None:
    from pathlib import Path

    folder = Path(str(tmp_path))
    (folder / "a.h").write_text('#include "b.h"\nint a(void);\n')
    (folder / "b.h").write_text("int b(void);\n")
    assert [path.name for path in _build.headers(folder)] == ["b.h", "a.h"]
    (folder / "b.h").write_text('#include "a.h"\n')
    with pytest.raises(ValueError, match="include each other"):
        _build.headers(folder)


@pytest.mark.parametrize("numbers", [[0.0, 1.0], [True, False], ["0", "1"], np.array([0.5, 1]), [None, 1]])
def test_only_whole_numbers_are_taken(numbers: list[object]) -> None:
    with pytest.raises(TypeError, match="whole numbers"):
        Space(numbers, [1], [])  # type: ignore[arg-type]


@pytest.mark.parametrize("number", [1.0, "1", None, True])
def test_only_a_whole_number_is_a_first_ring(number: object) -> None:
    with pytest.raises(TypeError, match="whole number"):
        scarred().indices([1], number, "earlywood")  # type: ignore[arg-type]


@pytest.mark.parametrize("shape", [(3, 3), (2, 2, 2)])
def test_coefficients_are_numbers_or_pairs(shape: tuple[int, ...]) -> None:
    with pytest.raises(TypeError, match="one number or one pair a row"):
        Curve(Space([0, 2], [1], []), np.ones(shape, dtype=np.int32))


def test_lists_must_be_lists() -> None:
    with pytest.raises(TypeError, match="a list"):
        Space(5, [1], [])  # type: ignore[arg-type]
    with pytest.raises(TypeError, match="a list"):
        Space([[0, 1]], [1], [])  # type: ignore[list-item]


@given(st.lists(st.integers(-(2**70), 2**70), max_size=5))
def test_numbers_become_the_nearest_that_32_bits_hold(numbers: list[int]) -> None:
    near = [min(max(number, -(2**31)), 2**31 - 1) for number in numbers]
    assert _engine.wholes(numbers, "numbers").tolist() == near


@pytest.mark.parametrize("kind", [np.int8, np.int16, np.int32, np.int64, np.uint8, np.uint32, np.uint64])
def test_all_kinds_of_whole_numbers_are_taken(kind: type[np.integer]) -> None:
    numbers = np.array([0, 1, np.iinfo(kind).max], dtype=kind)
    assert _engine.wholes(numbers, "numbers").tolist() == [0, 1, min(np.iinfo(kind).max, 2**31 - 1)]


def test_nothing_is_copied_that_lies_as_the_engine_takes_it() -> None:
    widths = np.arange(1, 51, dtype=np.int32)
    assert np.shares_memory(_engine.wholes(widths, "widths"), widths)
    assert not np.shares_memory(_engine.wholes(widths[::2], "widths"), widths)
    assert _engine.wholes(widths[::2], "widths").flags.c_contiguous


def test_a_caller_cannot_change_a_curve_behind_its_back() -> None:
    breaks, coefficients = np.array([0, 2], dtype=np.int32), np.array([[1, 1], [3, 3]], dtype=np.int32)
    curve = Curve(Space(breaks, [1], []), coefficients)
    before = curve.values([256])
    breaks[1], coefficients[0, 0] = 1, 9
    assert curve.values([256]).tolist() == before.tolist()
    with pytest.raises(ValueError, match="read-only"):
        curve.coefficients[0, 0] = 5


def test_a_wood_part_must_be_named_where_the_curves_differ() -> None:
    curve = scarred()
    assert not curve.is_whole_ring
    for call in (lambda: curve.indices([1], 0), lambda: curve.reach(1), lambda: curve.piece(0), curve.to_scipy):
        with pytest.raises(ValueError, match="name the wood part"):
            call()
    with pytest.raises(ValueError, match="no wood part"):
        curve.reach(1, "bark")  # type: ignore[arg-type]
    whole = Curve(Space([0, 2], [1], []), [[5, 5], [7, 7]])
    assert whole.is_whole_ring and whole.reach(7) == 512


def test_beams_have_the_weights_of_their_parts() -> None:
    beam = Space(*SCARRED)
    first, second = Space([0, 10], [3], []), Space([10, 30, 50], [2, 1], [0])
    assert beam.parts == [(0, 1), (1, 3)] and beam.n == first.n + second.n
    expected = list(first.weights.fractions())
    expected += [(row + first.n, column + first.columns, weight) for row, column, weight in second.weights.fractions()]
    assert list(beam.weights.fractions()) == expected
    assert beam.matrix().sum(axis=0).tolist() == [1.0] * beam.columns


def test_spaces_with_the_same_lists_are_equal() -> None:
    assert Space(*SCARRED) == Space(*SCARRED) and hash(Space(*SCARRED)) == hash(Space(*SCARRED))
    assert Space([0, 1], [1], []) != Space([0, 2], [1], []) and Space([0, 1], [1], []) != 5


def test_scipy_has_the_same_curve() -> None:
    curve = scarred()
    positions = [position for position in range(0, 50 * UNIT + 1, 64) if position != 10 * UNIT]
    values = curve.values(positions) / UNIT
    for side, wood in enumerate(("earlywood", "latewood")):
        smooth = curve.to_scipy(wood)  # type: ignore[arg-type]
        assert np.abs(smooth(np.array(positions) / UNIT) - values[:, side]).max() < 0.02


def test_pieces_are_those_of_all_segments() -> None:
    curve = scarred()
    pieces = curve.pieces("latewood")
    assert [piece.degree for piece in pieces] == [3, 2, 1]
    assert [(piece.start, piece.end) for piece in pieces] == [(0.0, 10.0), (10.0, 30.0), (30.0, 50.0)]
    for piece, exact in zip(pieces, curve.ordinates("latewood")):
        assert np.abs(np.array(piece.ordinates) - [float(each) for each in exact]).max() <= 1 / 128


def test_rings_give_the_values_that_divide() -> None:
    curve = scarred()
    values, indices = curve.rings([500, 0, 600], 9, "earlywood")
    assert values.tolist() == curve.values([UNIT * ring for ring in (9, 10, 11)])[:, 0].tolist()
    assert indices.tolist() == [256_000 * 500 // int(values[0]), -1, 256_000 * 600 // int(values[2])]


def test_a_negative_segment_is_no_segment() -> None:
    with pytest.raises(Refused, match="no=17"):
        scarred().piece(-1, "earlywood")


def test_repr_says_what_it_is() -> None:
    assert repr(Space([0, 2], [1], [])) == "Space([0, 2], [1], [])"
    assert repr(Curve(Space([0, 2], [1], []), [5, 7])) == "Curve(Space([0, 2], [1], []), [[5, 5], [7, 7]])"


def test_curves_and_refusals_go_to_other_processes() -> None:
    curve = pickle.loads(pickle.dumps(scarred()))
    assert repr(curve) == repr(scarred()) and curve.reach(900, "earlywood") == scarred().reach(900, "earlywood")
    with pytest.raises(Refused) as caught:
        Space([0, 1], [6], [])
    copied = pickle.loads(pickle.dumps(caught.value))
    assert str(copied) == str(caught.value) and copied.remedy == caught.value.remedy


def two_series() -> list[object]:
    import pandas

    return [
        np.ones((2, 2), dtype=np.int32),
        [[1, 2], [3, 4]],
        pandas.DataFrame({"A": [1, 2], "B": [3, 4]}),
        np.int32(5),
    ]


@pytest.mark.parametrize("given", two_series(), ids=["array", "lists", "frame", "number"])
def test_two_series_are_not_one(given: object) -> None:
    curve = Curve(Space([0, 9], [1], []), [900, 900])
    for call in (
        lambda: curve.indices(given, 0),  # type: ignore[arg-type]
        lambda: curve.rings(given, 0),  # type: ignore[arg-type]
        lambda: curve.values(given),  # type: ignore[arg-type]
        lambda: fit(Space([0, 9], [1], []), given, 0),  # type: ignore[arg-type]
        lambda: recover(Space([0, 9], [1], []), given),  # type: ignore[arg-type]
        lambda: write([Series("A", 1900, given)]),  # type: ignore[arg-type]
    ):
        with pytest.raises(TypeError):
            call()


def test_masked_rings_are_not_taken_for_widths() -> None:
    curve = Curve(Space([0, 9], [1], []), [900, 900])
    with pytest.raises(TypeError, match="masked"):
        curve.indices(np.ma.masked_array([500, 600], mask=[True, False]), 0)
    assert curve.indices(np.ma.masked_array([450, 900], mask=False), 0).tolist() == [500, 1000]


def aliases() -> list[object]:
    import pandas

    one, other = array.array("i", [0, 5]), array.array("i", [0, 5])
    return [pandas.Series([0, 5], dtype="int32"), one, memoryview(other), np.array([0, 5], dtype=np.int32)]


@pytest.mark.parametrize("breaks", aliases(), ids=["series", "array", "memoryview", "ndarray"])
def test_a_space_has_numbers_of_its_own(breaks: Any) -> None:
    space = Space(breaks, [1], [])
    before = hash(space)
    breaks[1] = 7
    assert space == Space([0, 5], [1], []) and hash(space) == before


def test_all_kinds_of_numbers_name_a_segment() -> None:
    curve = scarred()
    assert curve.piece(np.int64(1), "earlywood") == curve.piece(1, "earlywood")
    with pytest.raises(TypeError, match="segment"):
        curve.piece(1.0, "earlywood")  # type: ignore[arg-type]
    with pytest.raises(Refused, match="no stretch 7"):
        curve.piece(np.int32(7), "earlywood")


def test_curves_with_the_same_numbers_are_equal() -> None:
    assert scarred() == scarred() and hash(scarred()) == hash(scarred())
    other = Curve(Space(*SCARRED), [[900, 400]] * 8)
    assert scarred() != other and scarred() != 5
    assert Curve(Space([0, 5], [1], []), [1, 2]) != Curve(Space([0, 6], [1], []), [1, 2])


def test_series_are_compared_by_their_widths() -> None:
    one = read(b"FEW     1998    12     9\nFEW     2000     7 -9999\n", strict=True)[0]
    assert one == read(b"FEW     1998    12     9\nFEW     2000     7 -9999\n", strict=True)[0]
    assert one == Series("FEW", 1998, [12, 9, 7])
    assert one != Series("FEW", 1998, [12, 9, 8]) and one != Series("FEW", 1998, [12, 9])
    assert one != Series("FEW", 1999, [12, 9, 7]) and one != "FEW"


def test_a_long_series_goes_to_the_engine_in_several_calls() -> None:
    space = Space([0, 2000, 4000, 6000], [1, 1, 1], [-1, -1])
    curve = Curve(space, [500, 900] * 3)
    widths = np.arange(1, 5002, dtype=np.int32)
    values, indices = curve.rings(widths, 3)
    assert values.size == indices.size == 5001
    for at in (0, 4095, 4096, 5000):
        assert indices[at] == curve.indices(widths[at : at + 1], 3 + at)[0]
    assert values[4096] == curve.values([UNIT * 4099])[0, 0]
    with pytest.raises(Refused, match="no=14,4500: .*ring 4503"):
        curve.indices(np.where(widths == 4501, 100_000, widths), 3)


def test_kept_declarations_are_those_of_the_headers(tmp_path: Path) -> None:
    """A start takes them where they are kept, and reads the headers where those have others."""
    folder = _engine.root() / "include"
    _build.declare(folder, tmp_path)
    [kept] = tmp_path.glob("*.py")
    text = "\n".join(_build.declarations(header.read_text("ascii")) for header in _build.headers(folder))
    library = str(_engine.root() / "target/lib" / _build.LIBRARY)
    taken, read = _engine._declared(text, tmp_path), _engine._declared(text, tmp_path / "none")
    assert type(taken) is not type(read) and kept.stem == _build.declared_module(text)
    assert taken.sizeof("walzhik_reply") == read.sizeof("walzhik_reply")
    assert dir(taken.dlopen(library)) == dir(read.dlopen(library))
    assert type(_engine._declared(text.replace("walzhik_reply", "other_reply"), tmp_path)) is type(read)
    kept.write_text("import _no_such_cffi\n")
    shutil.rmtree(tmp_path / "__pycache__", ignore_errors=True)
    assert type(_engine._declared(text, tmp_path)) is type(read)
