"""What the screen's server makes of a design, without a browser: the numbers that are drawn, refusals at their
controls, coefficients that are carried over, and files with the commands' bytes.
"""

from __future__ import annotations

import json
import re
from importlib.resources import files
from io import BytesIO
from pathlib import Path
from typing import Any
from zipfile import ZipFile

import numpy as np
import pytest
from flask.testing import FlaskClient
from hypothesis import given, settings
from hypothesis import strategies as st
from random_spaces import space_lists
from random import Random
from running import ROOT, Run

from walzhik import Curve, Refused, Space, sheet, tucson
from walzhik.counting import Counting
from walzhik.failures import Refusal, Unusable
from walzhik.promises import promises, safe_lines, shape_lines, wood_lines
from walzhik.view.carry import carried, handle_places
from walzhik.view.design import Design
from walzhik.view.given import Given, start
from walzhik.view.server import app_of
from walzhik.view.shown import shown

OAK, ROOF = ROOT / "examples/tucson/oak.rwl", ROOT / "examples/sheets/roof.sheet"
HERE = {"Host": "127.0.0.1:80"}
TOKEN = "token"


def roof() -> Given:
    series = {each.name: each for each in tucson.read(OAK)}
    lists = sheet.read(ROOF.read_bytes())
    return start(series, lists, {"earlywood": "ROOF04E", "latewood": "ROOF04L"}, Counting(), ["oak.rwl", "roof.sheet"])


def whole(breaks: list[int], degrees: list[int], orders: list[int], coefficients: list[int]) -> Design:
    return Design(breaks, degrees, orders, [(each, each) for each in coefficients], True)


@pytest.fixture
def client() -> FlaskClient:
    return app_of(roof(), 80, TOKEN).test_client()


def begun(client: FlaskClient) -> Any:
    """The design that the page begins with."""
    made: Any = client.get(f"/{TOKEN}/given", headers=HERE).get_json()
    return made["design"]


def answer(client: FlaskClient, path: str, **body: Any) -> Any:
    return client.post(f"/{TOKEN}/{path}", json=body, headers=HERE)


# What is drawn.


def test_pieces_are_those_of_the_piece_calls() -> None:
    files_given = roof()
    curve = files_given.design.curve()
    for made in shown(files_given.design, None, files_given.series)["curves"]:
        for segment, piece in enumerate(made["pieces"]):
            exact = curve.piece(segment, made["wood"])
            assert tuple(height for _, height in piece["points"]) == exact.ordinates
            assert (piece["points"][0][0], piece["points"][-1][0]) == (exact.start, exact.end)
            assert piece["degree"] == exact.degree
        assert [piece["is_apart"] for piece in made["pieces"]] == [True, False, True, False]


@pytest.mark.parametrize("degree", [4, 5])
def test_higher_degrees_are_drawn_by_values(degree: int) -> None:
    design = whole([0, 7, 9], [degree, degree], [-1], [100 * (k % 3) + 50 for k in range(2 * degree + 2)])
    curve = design.curve()
    for made in shown(design, None, {})["curves"][0]["pieces"]:
        rings, heights = np.array(made["points"]).T
        positions = (256 * rings).astype(np.int32)
        assert (positions == 256 * rings).all() and len(rings) == 257
        assert (curve.values(positions)[:, 0] == 256 * heights).all()
    second = shown(design, None, {})["curves"][0]["pieces"][1]["points"]
    assert second[0] == [7 + 1 / 256, curve.values([7 * 256 + 1])[0, 0] / 256]


def test_indices_are_those_of_the_index_call() -> None:
    files_given = roof()
    curve = files_given.design.curve()
    for made in shown(files_given.design, None, files_given.series)["series"]:
        widths = files_given.series[made["name"]].widths
        assert made["widths"] == list(widths)
        assert made["indices"] == curve.indices(widths, 1703, made["wood"]).tolist()


def test_low_places_are_marked() -> None:
    design = whole([0, 4], [1], [], [-1000, 1000])
    made = shown(design, None, {})
    assert made["curves"][0]["low"] == [[0.0, 2.0]]
    assert [promise["holds"] for promise in made["promises"][:5]] == [True, True, True, False, False]
    assert all(promise["holds"] for promise in made["promises"][5:])
    assert "Coefficient 0 is -1000" in made["promises"][3]["words"]


def test_promises_of_orders_and_coefficients() -> None:
    smooth = shown(whole([0, 10, 30], [3, 3], [2], [5] * 5), None, {})["promises"]
    assert not smooth[2]["holds"] and "join 0" in smooth[2]["words"]
    plain = shown(whole([0, 10, 30], [3, 3], [1], [5] * 6), None, {})["promises"]
    assert all(promise["holds"] for promise in plain)
    assert plain[0]["words"].startswith("n = 6 ") and "of at most 48" in plain[1]["words"]


def test_the_panel_says_what_explain_says() -> None:
    """The lines of explain that do not stand there already, of the sheet as the page has it."""
    for design in (whole([0, 10, 30], [3, 3], [2], [5] * 5), whole([0, 10, 30], [2, 3], [1], [9, 8, 7, 5, 5])):
        words = [promise["words"] for promise in shown(design, None, {})["promises"]]
        lists = design.sheet(())
        assert words[5:] == shape_lines(lists) + wood_lines(lists)
        assert set(promises(lists)) - set(safe_lines(lists)) == set(words[5:])


# Refusals.

LONG = list(range(14))


@pytest.mark.parametrize(
    ("design", "number", "control"),
    [
        (whole([0, 9, 9], [1, 1], [0], [1, 1, 1]), 3, "break-2"),
        (whole([0, 9, 10**30], [1, 1], [0], [1, 1, 1]), 3, "break-2"),
        (whole([0, 9, 20], [1, 6], [0], [1, 1, 1]), 4, "degree-1"),
        (whole([0, 1, 3], [1, 2], [1], [1, 1, 1]), 5, "order-0"),
        (whole(LONG, [1] * 13, [0] * 12, [1] * 14), 15, "degree-0"),
        (whole([0, 9], [1], [], [1, 2_000_000]), 6, "coefficient-1-ring"),
        (Design([0, 9], [1], [], [(1, 1), (1, -(10**40))], False), 6, "coefficient-1-latewood"),
        (whole([0, 9], [1], [], [1, 1, 1]), 6, "coefficients"),
        (whole([0, 9], [1], [], []), 6, "coefficients"),
        (whole([], [], [], []), 2, "lists"),
        (whole([0, 9], [1], [0, 0], [1, 1]), 2, "lists"),
    ],
)
def test_a_refusal_names_its_control(design: Design, number: int, control: str) -> None:
    made = shown(design, None, {})["refusal"]
    assert (made["number"], made["control"]) == (number, control)
    assert made["words"] and "no words" not in made["words"].lower()


def test_a_fraction_that_is_too_large_is_told_at_its_join() -> None:
    lists = sheet.read_printout(sheet.printed((ROOT / "examples/refusals/refused_8.sheet").read_bytes())).refusal
    text = sheet.lists_of((ROOT / "examples/refusals/refused_8.sheet").read_bytes())
    assert lists is not None and text is not None
    design = Design(list(text.breaks), list(text.degrees), list(text.orders), list(text.pairs), False)
    assert shown(design, None, {})["refusal"]["control"] == f"order-{lists[1]}"


def test_a_refused_ring_leaves_the_curve() -> None:
    files_given = roof()
    design = files_given.design
    design.breaks[-1] = 1790
    made = shown(design, None, files_given.series)
    assert made["refusal"] is None and made["curves"]
    assert [(each["refusal"]["number"], each["refusal"]["control"]) for each in made["series"]] == [
        (7, "series-earlywood"),
        (7, "series-latewood"),
    ]
    design.breaks[-1], design.pairs[-1] = 1802, (700, -260)
    late = shown(design, None, files_given.series)["series"][1]
    assert late["refusal"]["number"] == 14 and late["faults"]
    values = design.curve().values([256 * (1703 + place) for place in late["faults"]])
    assert (values[:, 1] <= 0).all()


def test_a_series_of_more_rings_than_a_call_takes() -> None:
    long = tucson.Series("LONG", 0, np.full(5_000, 900, dtype=np.int32))
    design = whole([0, 2000, 4000, 6000], [1, 1, 1], [-1, -1], [9] * 6)
    design.series = {"ring": "LONG"}
    [made] = shown(design, None, {"LONG": long})["series"]
    assert made["refusal"] is None and made["indices"] == [100_000] * 5_000
    design.breaks[-1] = 4600
    [made] = shown(design, None, {"LONG": long})["series"]
    assert made["refusal"]["number"] == 7 and made["faults"] == list(range(4601, 5000))
    assert made["indices"][:4601] == [100_000] * 4601


@pytest.mark.parametrize("last", [1790, 1802])
def test_only_rings_that_are_refused_have_no_index(last: int) -> None:
    files_given = roof()
    design = files_given.design
    design.breaks[-1], design.pairs[-1] = last, (700, -260)
    late = shown(design, None, files_given.series)["series"][1]
    widths, curve = files_given.series["ROOF04L"].widths, design.curve()
    for place, (index, value) in enumerate(zip(late["indices"], late["values"])):
        if place in late["faults"]:
            assert (index, value) == (-1, None)
            with pytest.raises(Refused):
                curve.indices([widths[place]], 1703 + place, "latewood")
        else:
            assert index == curve.indices([widths[place]], 1703 + place, "latewood")[0]
            assert value == curve.values([256 * (1703 + place)])[0, 1]
    assert set(range(last - 1703 + 1, 100)) <= set(late["faults"]) and len(late["faults"]) < 60


def test_no_ring_within_the_curve_has_no_index() -> None:
    files_given = roof()
    design = files_given.design
    design.first = 9000
    for made in shown(design, None, files_given.series)["series"]:
        assert made["refusal"]["number"] == 7 and made["faults"] == list(range(100)) and made["closeness"] is None


def test_closeness_is_that_of_the_engine_s_values() -> None:
    files_given = roof()
    curve = files_given.design.curve()
    for side, made in enumerate(shown(files_given.design, None, files_given.series)["series"]):
        widths = np.asarray(files_given.series[made["name"]].widths)
        left = (widths - curve.values(256 * np.arange(1703, 1803))[:, side] / 256)[widths != 0] / 1000
        assert made["closeness"]["root_mean_square"] == pytest.approx(np.sqrt((left**2).mean()))
        assert made["closeness"]["rings"] == (widths != 0).sum()
        share = 1 - (left**2).sum() / ((widths[widths != 0] / 1000 - widths[widths != 0].mean() / 1000) ** 2).sum()
        assert made["closeness"]["share"] == pytest.approx(share)


def test_values_at_rings_are_the_engine_s() -> None:
    files_given = roof()
    made = shown(files_given.design, None, files_given.series)
    values = files_given.design.curve().values(256 * np.arange(1703, 1803))
    assert [each["values"] for each in made["curves"]] == values.T.tolist()
    long = whole([0, 2000, 4000, 6000], [1, 1, 1], [-1, -1], [9] * 6)
    assert shown(long, None, {})["curves"][0]["values"] == []


def test_the_answer_has_the_sheet_s_text() -> None:
    files_given = roof()
    assert shown(files_given.design, None, files_given.series, files_given.at)["sheet"].encode() == ROOF.read_bytes()


# Coefficients that are carried over.


def test_a_split_keeps_the_curve() -> None:
    old = Curve(Space([0, 20, 60], [3, 2], [1]), [[2400, 300], [1600, 200], [1000, 100], [900, 90], [800, 80]])
    new = Space([0, 10, 20, 40, 60], [3, 3, 2, 2], [1, 1, 1])
    made = Curve(new, [list(pair) for pair in carried(old, new)])
    positions = np.arange(0, 60 * 256 + 1, 37)
    assert np.abs(made.values(positions) - old.values(positions)).max() <= 3 * 256


@settings(max_examples=60)
@given(st.integers(0, 10**9))
def test_carried_coefficients_are_accepted_and_stay_above_zero(seed: int) -> None:
    random = Random(seed)
    spaces: list[Space] = []
    while len(spaces) < 2:
        try:
            spaces.append(Space(*space_lists(random)))
        except Refused:
            continue
    old = Curve(spaces[0], [random.randint(1, 5000) for _ in range(spaces[0].n)])
    pairs = carried(old, spaces[1])
    assert Curve(spaces[1], [list(pair) for pair in pairs]).coefficients.min() >= 1


@settings(max_examples=60)
@given(st.integers(0, 10**9))
def test_handles_stand_in_order_within_the_span(seed: int) -> None:
    try:
        space = Space(*space_lists(Random(seed)))
    except Refused:
        return
    places = handle_places(space)
    assert len(places) == space.n
    assert places[0] == space.breaks[0] and places[-1] == space.breaks[-1]
    assert all(before <= after + 1e-6 for before, after in zip(places, places[1:]))


def test_another_number_of_coefficients_is_carried_over(client: FlaskClient) -> None:
    design = begun(client)
    made = answer(client, "curve", design=design | {"orders": [0, -1, 0]}, before=design).get_json()
    assert made["refusal"] is None and len(made["pairs"]) == made["n"] == 10
    later = design | {"orders": [0, -1, 0], "pairs": made["pairs"]}
    back = answer(client, "curve", design=design | {"orders": [-1, -1, 0]}, before=later).get_json()
    assert back["refusal"] is None and len(back["pairs"]) == back["n"] == 11
    alone = answer(client, "curve", design=design | {"orders": [0, -1, 0]}, before=None).get_json()
    assert alone["refusal"]["number"] == 6


def test_the_curve_is_carried_over_to_a_space_with_the_same_number_of_coefficients(client: FlaskClient) -> None:
    design = begun(client)
    other = design | {"degrees": [3, 3, 2, 1], "orders": [2, -1, 0]}
    made = answer(client, "curve", design=other, before=design).get_json()
    assert made["n"] == len(design["pairs"]) and made["pairs"] != design["pairs"]
    old = Curve(Space(design["breaks"], design["degrees"], design["orders"]), design["pairs"])
    new = Curve(Space(other["breaks"], other["degrees"], other["orders"]), made["pairs"])
    kept = Curve(new.space, design["pairs"])
    at = 256 * np.arange(1703, 1803)
    assert np.abs(new.values(at) - old.values(at)).max() < np.abs(kept.values(at) - old.values(at)).max()
    moved = design | {"breaks": [1703, 1716, 1748, 1776, 1802]}
    assert answer(client, "curve", design=moved, before=None).get_json()["pairs"] == design["pairs"]


def test_a_bad_coefficient_before_is_a_refusal(client: FlaskClient) -> None:
    design = begun(client)
    bad = design | {"pairs": [[2_000_000, 1], *design["pairs"][1:]]}
    made = answer(client, "curve", design=bad | {"orders": [0, -1, 0]}, before=bad)
    assert made.status_code == 200 and made.get_json()["refusal"]["control"] == "coefficient-0-earlywood"


# Fits.


def test_a_template_leaves_the_wood_without_a_series_its_own_curve(client: FlaskClient) -> None:
    design = begun(client)
    alone = design | {"series": {"earlywood": "ROOF04E"}}
    made = answer(client, "fit", design=alone, is_template=True).get_json()["design"]
    early, late = ([pair[side] for pair in made["pairs"]] for side in (0, 1))
    assert early != late
    old = Curve(Space(design["breaks"], design["degrees"], design["orders"]), design["pairs"])
    assert late == [pair[1] for pair in carried(old, Space(made["breaks"], made["degrees"], made["orders"]))]
    assert early == [
        pair[0] for pair in answer(client, "fit", design=design, is_template=True).get_json()["design"]["pairs"]
    ]


@pytest.mark.parametrize("is_template", [False, True])
@pytest.mark.parametrize("pairs", [[], [[1, 1]], [[9, 9]] * 8, [[9, 9]] * 10, [[2_000_000, 5]] * 9])
def test_a_fit_of_another_number_of_coefficients_is_refused(
    client: FlaskClient, pairs: list[list[int]], is_template: bool
) -> None:
    made = answer(client, "fit", design=begun(client) | {"pairs": pairs}, is_template=is_template)
    assert made.status_code == 200 and made.get_json()["refusal"]["number"] == 6


def test_the_shape_of_a_fit_is_one_of_those_offered(client: FlaskClient) -> None:
    design = begun(client)
    offered = client.get(f"/{TOKEN}/given", headers=HERE).get_json()["shapes"]
    for shape, words in offered:
        assert words and answer(client, "fit", design=design, shape=shape).get_json()["refusal"] is None
    for shape in ("round", 7, []):
        assert answer(client, "fit", design=design, shape=shape).status_code == 400


def test_a_fit_takes_the_coefficients_of_the_design_before(client: FlaskClient) -> None:
    design = begun(client)
    other = design | {"orders": [0, -1, 0], "series": {"earlywood": "ROOF04E"}}
    made = answer(client, "fit", design=other, before=design).get_json()["design"]
    shown_late = answer(client, "curve", design=other, before=design).get_json()["pairs"]
    assert [pair[1] for pair in made["pairs"]] == [pair[1] for pair in shown_late]


def test_a_template_of_too_many_rings_is_told() -> None:
    long = tucson.Series("LONG", 0, np.full(2_500, 900, dtype=np.int32))
    lists = sheet.Sheet([0, 2000, 3000], [1, 1], [-1], [(9, 9)] * 4)
    made = app_of(start({"LONG": long}, lists, {}, Counting(), ["long.rwl", "a.sheet"]), 80, TOKEN).test_client()
    told = answer(made, "fit", design=begun(made), is_template=True)
    assert told.status_code == 200 and "scar" in told.get_json()["refusal"]["words"]


def test_a_fault_of_the_server_names_no_token(
    client: FlaskClient, monkeypatch: pytest.MonkeyPatch, caplog: pytest.LogCaptureFixture, capfd: Any
) -> None:
    def fail(*_: object) -> None:
        raise ZeroDivisionError("by no pairs")

    monkeypatch.setattr("walzhik.view.server.proposed", fail)
    made = client.post(f"/{TOKEN}/fit", json={"design": begun(client)}, headers=HERE)
    assert made.status_code == 500 and "ZeroDivisionError" in made.get_json()["words"]
    assert "by no pairs" in caplog.text and TOKEN not in caplog.text and TOKEN not in "".join(capfd.readouterr())


def test_fit_is_the_command_s(client: FlaskClient, run: Run) -> None:
    design = begun(client)
    made = answer(client, "fit", design=design).get_json()
    lists = ["--breaks", "1703,1715,1748,1776,1802", "--degrees", "3,2,2,1", "--orders", "1,-1,0"]
    ended = run("fit", OAK, "--earlywood", "ROOF04E", "--latewood", "ROOF04L", *lists)
    assert ended.status == 0
    assert made["design"]["pairs"] == [list(pair) for pair in sheet.read(ended.out.encode()).pairs]
    assert "not proved" in made["words"]


def test_template_is_the_command_s(client: FlaskClient, run: Run) -> None:
    design = begun(client)
    made = answer(client, "fit", design=design, is_template=True).get_json()["design"]
    lists = sheet.read(run("fit", OAK, "--earlywood", "ROOF04E", "--latewood", "ROOF04L").out.encode())
    assert made["breaks"] == list(lists.breaks) and made["pairs"] == [list(pair) for pair in lists.pairs]


def test_a_fit_without_widths_is_told(client: FlaskClient) -> None:
    design = begun(client)
    none = answer(client, "fit", design=design | {"series": {}}).get_json()["refusal"]
    assert none["control"] == "fit" and "No series is chosen" in none["words"]
    short = design | {"breaks": [1703, 1704, 1748, 1776, 1802]}
    assert "don't determine" in answer(client, "fit", design=short).get_json()["refusal"]["words"]
    outside = design | {"breaks": [1710, 1715, 1748, 1776, 1802]}
    assert answer(client, "fit", design=outside).get_json()["refusal"]["number"] == 7


# Files.


def test_files_have_the_commands_bytes(client: FlaskClient, run: Run, tmp_path: Path) -> None:
    design = begun(client)
    design["pairs"][3] = [1700, 600]
    made = {
        kind: answer(client, f"download/{kind}", design=design)
        for kind in ("sheet", "printout", "csv", "rwl", "svg", "png")
    }
    assert all(each.status_code == 200 for each in made.values())
    own = tmp_path / "roof.sheet"
    own.write_bytes(made["sheet"].data)
    assert b"1700:600" in made["sheet"].data
    assert made["printout"].data == sheet.printed(made["sheet"].data)
    named = ["--earlywood", "ROOF04E", "--latewood", "ROOF04L"]
    for kind in ("csv", "rwl"):
        assert run("indices", OAK, "--curve", own, *named, "-o", tmp_path / f"made.{kind}").status == 0
        assert made[kind].data == (tmp_path / f"made.{kind}").read_bytes()
    for kind in ("svg", "png"):
        assert run("plot", own, OAK, *named, "-o", tmp_path / f"made.{kind}").status == 0
        assert made[kind].data == (tmp_path / f"made.{kind}").read_bytes()
    assert made["svg"].headers["Content-Disposition"] == 'attachment; filename="roof.svg"'


def test_refused_files_are_told(client: FlaskClient) -> None:
    design = begun(client)
    high = answer(client, "download/sheet", design=design | {"orders": [2, -1, 0]})
    assert high.status_code == 422 and high.get_json()["refusal"]["control"] == "order-0"
    moved = answer(client, "download/sheet", design=design | {"breaks": [1704, 1715, 1748, 1776, 1802]})
    assert moved.get_json()["refusal"]["control"] == "at"
    empty = answer(client, "download/sheet", design=design | {"breaks": [], "at": "rings"})
    assert empty.status_code == 422 and empty.get_json()["refusal"]["number"] == 2
    none = answer(client, "download/csv", design=design | {"series": {}})
    assert none.status_code == 422 and "No series is chosen" in none.get_json()["refusal"]["words"]
    assert answer(client, "download/exe", design=design).status_code == 404


def test_positions_of_a_sheet(client: FlaskClient) -> None:
    design = begun(client)
    text = {at: answer(client, "download/sheet", design=design | {"at": at}).data for at in ("none", "rings", "given")}
    assert text["none"].endswith(b"\nat=\n")
    assert text["given"] == ROOF.read_bytes()
    listed = sheet.read(text["rings"]).at
    assert list(listed) == [256 * ring for ring in range(1703, 1803)]


def whole_ring_client(*, sheet_name: str | None = None) -> FlaskClient:
    series = {each.name: each for each in tucson.read(OAK)}
    lists = sheet.Sheet([1703, 1802], [1], [], [(900, 900), (800, 800)]) if sheet_name else None
    names = ["oak.rwl"] + ([sheet_name] if sheet_name else [])
    return app_of(start(series, lists, {}, Counting(), names), 80, TOKEN).test_client()


def saved_name(made: Any) -> str:
    return str(re.findall(r'filename="(.*)"', made.headers["Content-Disposition"])[0])


@pytest.mark.parametrize(
    ("sheet_name", "names"),
    [
        (None, ["oak_ROOF04E.sheet", "oak_ROOF04E_indices.csv", "oak_ROOF04E_indices.rwl"]),
        ("oak.sheet", ["oak.sheet", "oak_indices.csv", "oak_indices.rwl"]),
        ("roof.sheet", ["roof.sheet", "roof.csv", "roof.rwl"]),
    ],
)
def test_indices_are_never_named_as_the_measured_file(sheet_name: str | None, names: list[str]) -> None:
    client = whole_ring_client(sheet_name=sheet_name)
    design = begun(client)
    made = [saved_name(answer(client, f"download/{kind}", design=design)) for kind in ("sheet", "csv", "rwl")]
    assert made == names


def test_the_indices_of_a_file_with_one_series() -> None:
    [one] = [each for each in tucson.read(OAK) if each.name == "ROOF04E"]
    client = app_of(start({one.name: one}, None, {}, Counting(), ["oak.rwl"]), 80, TOKEN).test_client()
    assert saved_name(answer(client, "download/rwl", design=begun(client))) == "oak_indices.rwl"


def test_all_designs_are_saved_with_the_commands_bytes(run: Run, tmp_path: Path) -> None:
    client = whole_ring_client()
    early = begun(client)
    late = answer(client, "fit", design=early | {"series": {"ring": "ROOF04L"}}, is_template=True).get_json()["design"]
    made = answer(client, "all", designs=[{"design": late}, {"design": early}])
    assert made.status_code == 200 and saved_name(made) == "oak_all.zip"
    assert made.data == answer(client, "all", designs=[{"design": late}, {"design": early}]).data
    with ZipFile(BytesIO(made.data)) as packed:
        assert packed.namelist() == ["ROOF04E.sheet", "ROOF04L.sheet", "oak_indices.csv"]
        packed.extractall(tmp_path)
    assert (tmp_path / "ROOF04E.sheet").read_bytes() == answer(client, "download/sheet", design=early).data
    named = [f"--curve={name}={tmp_path / name}.sheet" for name in ("ROOF04E", "ROOF04L")]
    assert run("indices", OAK, *named, "-o", tmp_path / "own.csv").status == 0
    assert (tmp_path / "own.csv").read_bytes() == (tmp_path / "oak_indices.csv").read_bytes()


def test_both_parts_of_a_design_are_saved_as_one_sheet(client: FlaskClient, run: Run, tmp_path: Path) -> None:
    made = answer(client, "all", designs=[{"design": begun(client)}])
    with ZipFile(BytesIO(made.data)) as packed:
        assert packed.namelist() == ["ROOF04E_ROOF04L.sheet", "oak_indices.csv"]
        packed.extractall(tmp_path)
    named = ["--earlywood", "ROOF04E", "--latewood", "ROOF04L"]
    ended = run("indices", OAK, "--curve", tmp_path / "ROOF04E_ROOF04L.sheet", *named, "-o", tmp_path / "own.csv")
    assert ended.status == 0 and (tmp_path / "own.csv").read_bytes() == (tmp_path / "oak_indices.csv").read_bytes()


def test_a_file_has_the_coefficients_that_are_carried_over(client: FlaskClient) -> None:
    design = begun(client)
    other = design | {"orders": [0, -1, 0]}
    pairs = answer(client, "curve", design=other, before=design).get_json()["pairs"]
    made = answer(client, "download/sheet", design=other | {"at": "none"}, before=design)
    assert [list(pair) for pair in sheet.read(made.data).pairs] == pairs


def test_a_refused_design_among_all_is_told() -> None:
    whole_ring = whole_ring_client()
    design = begun(whole_ring)
    bad = design | {"breaks": [*design["breaks"][:-1], 1790]}
    made = answer(whole_ring, "all", designs=[{"design": bad}])
    assert made.status_code == 422 and "ROOF04E" in made.get_json()["refusal"]["words"]
    assert answer(whole_ring, "all", designs=[{"design": design}] * 2).status_code == 400
    assert answer(whole_ring, "all", designs=7).status_code == 400
    assert answer(whole_ring, "all", designs=[7]).status_code == 400
    none = answer(whole_ring, "all", designs=[])
    assert none.status_code == 422 and "No series is chosen" in none.get_json()["refusal"]["words"]


# A sheet that is opened, and the other series.


def test_an_opened_sheet_is_the_design(client: FlaskClient) -> None:
    design = begun(client)
    text = (ROOT / "examples/sheets/step_4.sheet").read_bytes()
    made = answer(client, "open", design=design, text=text.decode("latin-1")).get_json()["design"]
    lists = sheet.read(text)
    assert made["breaks"] == list(lists.breaks) and made["pairs"] == [list(pair) for pair in lists.pairs]
    assert made["series"] == design["series"] and made["positions"] == list(lists.at)
    back = answer(client, "download/sheet", design=made)
    assert back.data == text


def test_an_opened_sheet_is_tidied_as_the_commands_do_it(client: FlaskClient) -> None:
    text = ROOF.read_text().replace("\n", "\r\n")
    made = answer(client, "open", design=begun(client), text=text).get_json()
    assert made["refusal"] is None and made["design"]["breaks"][0] == 1703 and made["words"]


@pytest.mark.parametrize("text", ["", "breaks=0,60\n", "\u00ff\u00fe", "\ufeff", 7, None])
def test_what_is_no_sheet_is_not_opened(client: FlaskClient, text: Any) -> None:
    made = answer(client, "open", design=begun(client), text=text)
    assert made.status_code == 400 or made.get_json()["refusal"]["words"]


def test_the_other_series_are_those_that_are_not_chosen() -> None:
    client = whole_ring_client()
    design = begun(client)
    made = answer(client, "others", design=design).get_json()
    widths = {each.name: list(each.widths) for each in tucson.read(OAK)}
    assert [(each["name"], each["first"], each["widths"]) for each in made["others"]] == [
        ("ROOF04L", 1703, widths["ROOF04L"])
    ]
    assert made["left"] == 0
    many = {f"S{place}": tucson.Series(f"S{place}", 0, np.full(9, 900, np.int32)) for place in range(70)}
    crowd = app_of(start(many, None, {}, Counting(), ["many.rwl"]), 80, TOKEN).test_client()
    made = answer(crowd, "others", design=begun(crowd)).get_json()
    assert (len(made["others"]), made["left"]) == (50, 19)


def falling() -> dict[str, tucson.Series]:
    """Two series that fall by 10 a year from 1805 and from 1801."""
    early = tucson.Series("E", 1805, np.arange(950, 550, -10, dtype=np.int32))
    late = tucson.Series("L", 1801, np.arange(800, 400, -10, dtype=np.int32))
    return {each.name: each for each in (early, late)}


@pytest.mark.parametrize(
    ("named", "counting", "breaks", "starts"),
    [
        ({}, Counting(), (1805, 1844), {"E": 1805, "L": 1801}),
        ({}, Counting(first=1), (5, 44), {"E": 5, "L": 1}),
        ({}, Counting(each_first=1), (1, 40), {"E": 1, "L": 1}),
        ({"ring": "E"}, Counting(first=1), (1, 40), {"E": 1, "L": -3}),
        ({"earlywood": "E", "latewood": "L"}, Counting(first=1), (1, 44), {"E": 5, "L": 1}),
        ({"earlywood": "E", "latewood": "L"}, Counting(each_first=7), (7, 46), {"E": 7, "L": 7}),
    ],
)
def test_rings_are_counted_as_the_commands_count_them(
    named: dict[str, str], counting: Counting, breaks: tuple[int, int], starts: dict[str, int]
) -> None:
    series = falling()
    client = app_of(start(series, None, named, counting, ["falling.rwl"]), 80, TOKEN).test_client()
    design = begun(client)
    assert (design["breaks"][0], design["breaks"][-1]) == breaks
    beside = answer(client, "curve", design=design, before=None).get_json()["series"]
    others = answer(client, "others", design=design).get_json()["others"]
    assert {each["name"]: each["first"] for each in [*beside, *others]} == starts
    again = answer(client, "fit", design=design, before=None, is_template=True).get_json()["design"]
    assert (again["breaks"], again["first"], again["earliest"]) == (
        design["breaks"],
        design["first"],
        design["earliest"],
    )


@pytest.mark.parametrize("option", ["--first", "--each-first"])
def test_the_table_is_that_of_the_command_with_the_same_option(run: Run, tmp_path: Path, option: str) -> None:
    series = falling()
    file = tmp_path / "falling.rwl"
    file.write_bytes(tucson.write(series.values()))
    counting = Counting(first=1) if option == "--first" else Counting(each_first=1)
    named = {"earlywood": "E", "latewood": "L"}
    client = app_of(start(series, None, named, counting, ["falling.rwl"]), 80, TOKEN).test_client()
    design = begun(client)
    (tmp_path / "made.sheet").write_bytes(answer(client, "download/sheet", design=design, before=None).data)
    parts = ("--earlywood", "E", "--latewood", "L")
    fitted = run("fit", file, *parts, option, "1")
    assert fitted.out.encode() == (tmp_path / "made.sheet").read_bytes()
    divided = run("indices", file, "--curve", tmp_path / "made.sheet", *parts, option, "1")
    assert answer(client, "download/csv", design=design, before=None).data == divided.out.encode()
    opened = answer(client, "open", design=design, text=fitted.out).get_json()["design"]
    assert (opened["first"], opened["earliest"]) == (design["first"], design["earliest"])


def test_a_name_that_a_spreadsheet_would_compute_is_told() -> None:
    names = ["=A1", "+B", "-C", "@D", "E=F"]
    series = {name: tucson.Series(name, 1900, np.full(30, 900, np.int32)) for name in names}
    made = start(series, None, {}, Counting(), ["odd.rwl"]).as_json()["series"]
    assert [each["care"] is None for each in made] == [False] * 4 + [True]
    assert all(each["name"] in each["care"] for each in made[:4])


# What is sent.


@pytest.mark.parametrize(
    "change",
    [
        {"breaks": [0, 1.5]},
        {"breaks": "0,1"},
        {"degrees": [True]},
        {"orders": None},
        {"pairs": [[1, 2, 3]]},
        {"pairs": [1, 2]},
        {"pairs": {}},
        {"series": {"earlywood": "NOBODY"}},
        {"series": {"bark": "ROOF04E"}},
        {"series": {"earlywood": 4}},
        {"series": []},
        {"first": 1.5},
        {"earliest": "1801"},
        {"at": "often"},
        {"at": []},
        {"positions": [1.5]},
        {"is_whole_ring": 1},
        {"is_whole_ring": True},
    ],
)
def test_what_is_no_design_is_refused(client: FlaskClient, change: dict[str, Any]) -> None:
    design = begun(client)
    made = answer(client, "curve", design=design | change, before=None)
    assert made.status_code == 400 and made.get_json()["words"]
    assert answer(client, "curve", design=design, before=design | change).status_code in (200, 400)


@pytest.mark.parametrize(
    "body", [b"", b"{", b"[]", b"7", b"\xff", b'{"design": NaN}', b"[" * 100_000, b'{"design": 9' + b"9" * 9000 + b"}"]
)
def test_broken_json_is_refused(client: FlaskClient, body: bytes) -> None:
    made = client.post(f"/{TOKEN}/curve", data=body, content_type="application/json", headers=HERE)
    assert made.status_code == 400


def test_only_json_is_taken(client: FlaskClient) -> None:
    design = begun(client)
    made = client.post(f"/{TOKEN}/curve", data=json.dumps({"design": design}), content_type="text/plain", headers=HERE)
    assert made.status_code == 415


# What the page begins with.


def test_without_a_sheet_a_template_is_fitted() -> None:
    series = {each.name: each for each in tucson.read(OAK)}
    ring = start(series, None, {}, Counting(), ["oak.rwl"]).design
    assert ring.is_whole_ring and ring.series == {"ring": "ROOF04E"} and ring.breaks == [1703, 1733, 1802]
    parts = start(
        series, None, {"earlywood": "ROOF04E", "latewood": "ROOF04L"}, Counting(each_first=1), ["oak.rwl"]
    ).design
    assert not parts.is_whole_ring and parts.breaks[0] == 1 and parts.pairs[0][0] != parts.pairs[0][1]
    alone = start(series, None, {"earlywood": "ROOF04E"}, Counting(), ["oak.rwl"])
    assert "latewood" in alone.words and "copy" in alone.words


def test_without_files_there_is_a_curve() -> None:
    assert shown(start({}, None, {}, Counting(), []).design, None, {})["refusal"] is None


def test_a_sheet_of_wood_parts_asks_for_them() -> None:
    series = {each.name: each for each in tucson.read(OAK)}
    with pytest.raises(Unusable, match="--earlywood"):
        start(series, sheet.read(ROOF.read_bytes()), {"ring": "ROOF04E"}, Counting(), [])


def test_too_many_rings_have_no_start() -> None:
    long = tucson.Series("LONG", 0, np.full(2_500, 900, dtype=np.int32))
    with pytest.raises(Refusal, match="scar"):
        start({"LONG": long}, None, {}, Counting(), [])


# The page's own files.


def test_the_page_takes_nothing_from_elsewhere_and_makes_no_markup() -> None:
    texts = {
        entry.name: entry.read_text(encoding="utf-8") for entry in files("walzhik.view").joinpath("static").iterdir()
    }
    assert "index.html" in texts and "main.js" in texts
    for name, text in texts.items():
        assert set(re.findall(r"https?://[^\s\"']+", text)) <= {"http://www.w3.org/2000/svg"}, name
        assert not re.search(
            r"innerHTML|outerHTML|insertAdjacentHTML|document\.write|eval\(|new Function|\son[a-z]+=", text
        ), name
    assert not re.search(r"<script(?![^>]*\bsrc=)|\bstyle=|<style", texts["index.html"])
    for imported in re.findall(r'from "\./([^"]+)"', "\n".join(texts.values())):
        assert imported in texts
