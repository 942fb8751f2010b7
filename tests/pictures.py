"""Reads an SVG picture of the command plot back into numbers: what its paths say by the picture's own scales, and its words.

Apart from manual.py because it knows how matplotlib writes a picture: a group
for each tick with its place and its text, a group with the name that plot gave
it for each path. Sizes, fonts and the choice of ticks may differ between
versions; what a path says by the ticks may not.
"""

import re
import xml.etree.ElementTree as ElementTree
from typing import NamedTuple

SVG = "{http://www.w3.org/2000/svg}"
MINUS = "\N{MINUS SIGN}"
NUMBER = re.compile(r"-?[0-9]+(?:\.[0-9]+)?")
TOKEN = re.compile(r"[MLQC]|-?[0-9.]+(?:e-?[0-9]+)?")


class Vertex(NamedTuple):
    """A vertex of a path: its command of SVG, and where it is by the scales."""
    command: str
    ring: float
    height: float


class Picture(NamedTuple):
    paths: dict              # the vertices by the path's name
    words: list              # all texts that are no numbers


def parsed(data):
    """The picture's elements, comments too: these hold the texts."""
    return ElementTree.fromstring(data, ElementTree.XMLParser(target=ElementTree.TreeBuilder(insert_comments=True)))


def texts(element):
    return [each.text.strip().replace(MINUS, "-") for each in element.iter(ElementTree.Comment)]


def scale(panel, axis, coordinate):
    """The number at a coordinate, by the first and the last tick of an axis that have a text."""
    ticks = []
    for group in panel.iter(f"{SVG}g"):
        if group.get("id", "").startswith(axis) and texts(group):
            place = float(next(group.iter(f"{SVG}use")).get(coordinate))
            ticks.append((place, float(texts(group)[0])))
    (first, low), *_, (last, high) = sorted(ticks)
    return lambda at: low + (at - first) * (high - low) / (last - first)


def vertices(path, rings, heights):
    """The vertices of an SVG path, by the two scales."""
    command, numbers, found = "", [], []
    for token in TOKEN.findall(path):
        if token in "MLQC":
            command = token
            continue
        numbers.append(float(token))
        if len(numbers) == 2:
            found.append(Vertex(command, rings(numbers[0]), heights(numbers[1])))
            numbers = []
    return found


def picture(data):
    """What a picture says."""
    root = parsed(data)
    panels = [group for group in root.iter(f"{SVG}g") if group.get("id", "").startswith("axes_")]
    rings = scale(panels[-1], "xtick_", "x")
    paths = {}
    for panel in panels:
        heights = scale(panel, "ytick_", "y")
        for group in panel.iter(f"{SVG}g"):
            name = group.get("id", "")
            if name.startswith(("curve-", "widths-", "indices-")):
                paths[name] = vertices(next(group.iter(f"{SVG}path")).get("d"), rings, heights)
    return Picture(paths, sorted(text for text in texts(root) if not NUMBER.fullmatch(text)))
