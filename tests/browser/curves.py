"""What a page must draw: the engine's own pieces for the lists that its controls show."""

from __future__ import annotations

from walzhik import Curve, Refused, Space

from .page import Page


def curve_of(page: Page) -> Curve:
    """The curve of the lists that the page shows."""
    lists = page.lists()
    return Curve(Space(lists.breaks, lists.degrees, lists.orders), [list(pair) for pair in lists.pairs])


def exact_points(page: Page, wood: str) -> list[tuple[str, list[float]]]:
    """A path's commands by the piece calls, for the lists that the page shows; none where the engine refuses them."""
    lists = page.lists()
    try:
        curve = Curve(Space(lists.breaks, lists.degrees, lists.orders), [list(pair) for pair in lists.pairs])
    except Refused:
        return []
    made: list[tuple[str, list[float]]] = []
    for segment, degree in enumerate(lists.degrees):
        piece = curve.piece(segment, None if wood == "ring" else "earlywood" if wood == "earlywood" else "latewood")
        step = (piece.end - piece.start) / degree
        rings = [piece.start + place * step for place in range(degree)] + [piece.end]
        points = [number for point in zip(rings, piece.ordinates) for number in point]
        if segment == 0 or lists.orders[segment - 1] == -1:
            made.append(("M", points[:2]))
        made.append(({1: "L", 2: "Q", 3: "C"}[degree], points[2:]))
    return made


def agrees(page: Page, *woods: str) -> None:
    """Wait until the page's paths are those of the piece calls, number by number."""
    for wood in woods or ("earlywood", "latewood"):
        page.until(
            lambda: exact_points(page, wood) == page.path(wood) != [], f"the path of the {wood} is not the engine's"
        )


def refusal_of(page: Page) -> Refused:
    """What the engine says of the lists that the page shows."""
    try:
        curve_of(page)
    except Refused as error:
        return error
    raise AssertionError("the engine does not refuse what the page shows")
