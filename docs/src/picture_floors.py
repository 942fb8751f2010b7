"""Draws the floors of the crates, and the way of a sheet and of a laboratory's file through them, from crates.txt.

usage: picture_floors.py [--check]

It writes docs/pictures/floors.svg; --check only says whether the picture there is the one that would be written.
"""

from __future__ import annotations

import sys
from pathlib import Path
from typing import NamedTuple
from xml.sax.saxutils import escape

ROOT = Path(__file__).resolve().parents[2]
PICTURE = ROOT / "docs/pictures/floors.svg"

SHEET = "sheet_read build_limits build_joins build curve_ordinates curve_triangle curve_places curve sheet_weights sheet_values sheet_text sheet"
FILE = "tucson_clean tucson_read indices table_lines rings"
WAYS = {  # colour of its numbers, what it is, the crates in the order in which the data comes to them
    "#1f5f99": ("a sheet, from its text to the printout", SHEET.split()),
    "#a0521a": ("a laboratory's file, from its bytes to the table of indices", FILE.split()),
}

WIDTH, LEFT, TITLE_WIDTH = 1080, 12, 190
LETTER, PADDING, BADGE = (
    6.1,
    8,
    15,
)  # of a crate's name at 11 points: pixels a letter, beside the name, and for a number
BOX, GAP, ROW, BAND = 20, 6, 26, 12
COLOURS = ("#f6f1e7", "#ece4d4")


class Floor(NamedTuple):
    """A floor: the first word of its crates' names, what it holds, and its crates."""

    name: str
    holds: str
    crates: list[str]


def floors() -> list[Floor]:
    """The floors of crates.txt, lowest first: a heading for each, then a line for each crate."""
    found: list[Floor] = []
    for line in (ROOT / "crates.txt").read_text(encoding="ascii").splitlines()[1:]:
        if line.startswith("# "):
            name, _, holds = line[2:].partition(": ")
            found.append(Floor(name, holds, []))
        elif line:
            found[-1].crates.append(line.partition(":")[0].split()[0])
    return found


def text(x: float, y: float, words: str, more: str = "") -> str:
    return f'<text x="{x:g}" y="{y:g}"{more}>{escape(words)}</text>'


def badges_of(crate: str) -> list[tuple[str, int]]:
    """The colour and the number of each way that goes through a crate."""
    return [(colour, way.index(crate) + 1) for colour, (_, way) in WAYS.items() if crate in way]


def box(x: float, y: float, crate: str) -> tuple[float, list[str]]:
    """A crate's box with its numbers, and its width."""
    badges = badges_of(crate)
    width = LETTER * len(crate) + 2 * PADDING + BADGE * len(badges)
    edge, thick = (badges[0][0], 1.6) if badges else ("#9a917f", 1)
    paint = f'fill="#fff" stroke="{edge}" stroke-width="{thick}"'
    drawn = [f'<rect x="{x:g}" y="{y:g}" width="{width:g}" height="{BOX}" rx="3" {paint}/>']
    for colour, number in badges:
        drawn.append(f'<circle cx="{x + 11:g}" cy="{y + BOX / 2:g}" r="7.5" fill="{colour}"/>')
        drawn.append(text(x + 11, y + 13.5, str(number), ' fill="#fff" text-anchor="middle" font-size="9"'))
        x += BADGE
    return width, [*drawn, text(x + PADDING, y + 14, crate)]


def wrapped(words: str, letters: int) -> list[str]:
    """Words in lines of at most so many letters."""
    lines = [""]
    for word in words.split():
        if len(lines[-1]) + len(word) + 1 > letters and lines[-1]:
            lines.append("")
        lines[-1] = f"{lines[-1]} {word}".strip()
    return lines


def band(y: float, floor: Floor, colour: str) -> tuple[float, list[str]]:
    """A floor as a band with its crates, and its height."""
    x, row, drawn = LEFT + TITLE_WIDTH, y + BAND, []
    for crate in floor.crates:
        width, parts = box(x, row, crate)
        if x + width > WIDTH - LEFT:
            x, row = LEFT + TITLE_WIDTH, row + ROW
            width, parts = box(x, row, crate)
        drawn += parts
        x += width + GAP
    titles = wrapped(floor.holds, 30)
    height = max(row + BOX + BAND - y, 2 * BAND + 14 * (len(titles) + 1))
    said = [text(LEFT + 8, y + BAND + 12, floor.name, ' font-weight="bold" font-size="13"')]
    said += [
        text(LEFT + 8, y + BAND + 27 + 13 * n, line, ' fill="#5d574b" font-size="10.5"')
        for n, line in enumerate(titles)
    ]
    ground = f'<rect x="{LEFT}" y="{y:g}" width="{WIDTH - 2 * LEFT}" height="{height:g}" fill="{colour}"/>'
    return height, [ground, *said, *drawn]


def picture() -> str:
    """The picture: the lowest floor at the bottom, and what the numbers are below it."""
    found = floors()
    lost = {crate for _, way in WAYS.values() for crate in way} - {crate for floor in found for crate in floor.crates}
    assert not lost, f"no such crate: {' '.join(sorted(lost))}"
    y, drawn = 8.0, []
    for number, floor in enumerate(reversed(found)):
        height, parts = band(y, floor, COLOURS[number % len(COLOURS)])
        drawn += parts
        y += height
    for colour, (what, way) in WAYS.items():
        lines = wrapped(f"{what}: " + " → ".join(way).replace(" → ", " →\xa0"), 165)
        for n, line in enumerate(lines):
            y += 18
            if not n:
                drawn.append(f'<circle cx="{LEFT + 8}" cy="{y - 4:g}" r="6" fill="{colour}"/>')
            drawn.append(text(LEFT + 22, y, line))
    head = f'<svg xmlns="http://www.w3.org/2000/svg" width="{WIDTH}" height="{y + 14:g}" font-family="sans-serif" font-size="11" fill="#222">'
    title = "<title>The floors of the crates, lowest at the bottom, and the way of a sheet and of a file through them</title>"
    ground = f'<rect width="{WIDTH}" height="{y + 14:g}" fill="#fff"/>'
    return "\n".join([head, title, ground, *drawn, "</svg>", ""])


def main(arguments: list[str]) -> int:
    made = picture()
    if arguments != ["--check"]:
        PICTURE.write_text(made, encoding="utf-8")
    elif not PICTURE.exists() or PICTURE.read_text(encoding="utf-8") != made:
        print(
            f"{PICTURE.relative_to(ROOT)} is not what crates.txt says: type python3 {Path(__file__).relative_to(ROOT)}"
        )
        return 1
    return 0


if __name__ == "__main__":
    sys.exit(main(sys.argv[1:]))
