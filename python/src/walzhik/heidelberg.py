"""Heidelberg files (.fh, as TSAP writes them): a front that makes series of a text, and a writer.

Nothing here is proved. It uses KeyCode, DateBegin, DateEnd, Length and Unit, refuses what it can't place, and hands its series to
`walzhik.widths`, which has them written and read by the engine before anything uses them.
"""

from __future__ import annotations

import re
from collections.abc import Iterator, Sequence
from dataclasses import dataclass, field

from ._changes import Changes, Unreadable
from ._front_parts import Asked, Drawn, Found, Scale, drawn, placed, thousandths, year_of
from ._text_lines import Line, text_lines, without_marks
from .tucson import Series
from .words.quoting import quoted

HEADER, DATA = b"HEADER:", b"DATA:"
KINDS = (b"tree", b"single")  # of data with one value a year
UNITS: dict[str, Scale] = {"mm": "mm", "1/10mm": "tenths", "1/100mm": "hundredths", "1/1000mm": "thousandths"}
USED = ("keycode", "datebegin", "dateend", "length", "unit")
COLUMNS, A_LINE = 6, 10  # of a value, and values
VALUE = re.compile(rb" *-?[0-9.]+")


@dataclass
class Block:
    """A header with its data: the lines of the keys that are used, and of the data."""

    line: int
    keys: dict[str, tuple[int, bytes]] = field(default_factory=dict)
    data_line: int = 0
    data: list[Line] = field(default_factory=list)

    def text(self, key: str) -> str:
        """The value of a key, or an empty text."""
        return self.keys[key][1].decode("latin-1") if key in self.keys else ""

    def at(self, key: str) -> int:
        """The line of a key, or of the header where it has none."""
        return self.keys[key][0] if key in self.keys else self.line

    def number(self, key: str) -> int | None:
        """The whole number of a key, or None where it is not there or empty."""
        return year_of(self.text(key), key_name(key), self.at(key)) if self.text(key) else None


def key_name(key: str) -> str:
    """A key as programs write it."""
    return {"keycode": "KeyCode", "datebegin": "DateBegin", "dateend": "DateEnd"}.get(key, key.capitalize())


def draw(text: bytes, asked: Asked = Asked()) -> Drawn:
    r"""The series of a Heidelberg text, or `Unreadable` with the line. Unproved: the engine has to write and read them before they are used.

    >>> made = draw(b"HEADER:\nKeyCode=FEW\nDateBegin=1998\nLength=2\nUnit=1/100 mm\nDATA:Tree\n   123   119     0\n")
    >>> made.series
    [Series(name='FEW', first=1998, widths=array([1230, 1190], dtype=int32))]
    >>> print(made.changes[0])
    Line 7: values of 0 past Length were left out.
    """
    changes = Changes()
    lines = text_lines(without_marks(text, changes), changes)
    unused: dict[str, list[int]] = {}
    found = [series_of(block, asked, changes) for block in blocks(lines, unused)]
    for key, at in unused.items():
        changes.add(at[0], f"the key {key} is not used ({len(at):,} {'header' if len(at) == 1 else 'headers'})")
    return drawn(found, asked, changes)


def blocks(lines: Sequence[Line], unused: dict[str, list[int]]) -> Iterator[Block]:
    """The blocks of a text, whole."""
    block: Block | None = None
    for line in lines:
        body = line.body.strip()
        if body.upper() == HEADER:
            if block is not None:
                yield whole(block)
            block = Block(line.number)
        elif block is None:
            raise Unreadable(line.number, "it stands before the first HEADER:.", "Begin the file with HEADER:.")
        elif body.upper().startswith(DATA) and not block.data_line:
            block.data_line = line.number
            refuse_kind(line.number, body[len(DATA) :].strip())
        elif block.data_line:
            block.data.append(line)
        else:
            take_key(block, line.number, body, unused)
    if block is not None:
        yield whole(block)


def refuse_kind(line: int, kind: bytes) -> None:
    """Refuse data that are not one value a year."""
    if kind.lower() not in KINDS:
        words = f"its data are of the kind {quoted(kind)}, not Tree or Single."
        raise Unreadable(line, words, "Export the series with one value a year, as DATA:Tree or DATA:Single.")


def take_key(block: Block, line: int, body: bytes, unused: dict[str, list[int]]) -> None:
    """Take in a line Key=Value of a header."""
    key, equals, value = body.partition(b"=")
    name = key.strip().decode("latin-1").lower()
    if not equals:
        raise Unreadable(line, f"{quoted(body)} is no Key=Value line of a header.", "Correct it, or take it out.")
    if name not in USED:
        unused.setdefault(quoted(key.strip()), []).append(line)
    elif name in block.keys:
        raise Unreadable(line, f"{key_name(name)} comes twice in one header.", "Take one of the two out.")
    else:
        block.keys[name] = (line, value.strip())


def whole(block: Block) -> Block:
    """The block, if it has data."""
    if not block.data_line:
        words = "the header has no DATA: line behind it."
        raise Unreadable(block.line, words, "Put DATA:Tree before its values, or take the header out.")
    return block


def series_of(block: Block, asked: Asked, changes: Changes) -> Found:
    """The series of a block."""
    if not block.text("keycode"):
        raise Unreadable(block.line, "the header has no KeyCode.", "Put a line KeyCode=NAME into it.")
    unit = unit_of(block, asked, changes)
    first, length = years_of(block, asked, changes)
    values = list(values_of(block))
    if len(values) < length:
        follow = "1 value follows" if len(values) == 1 else f"{len(values):,} values follow"
        words = f"Length is {length:,}, but {follow}."
        raise Unreadable(block.at("length"), words, "Put in what is missing, or correct Length.")
    for line, text in values[length:]:
        if text.strip("0"):
            words = f"the value {text} stands past Length, which is {length:,}."
            raise Unreadable(line, words, "Correct Length, or take out what does not belong to the series.")
        changes.add(line, "values of 0 past Length were left out")
    widths = [thousandths(text, unit, asked, line, changes) for line, text in values[:length]]
    return Found(block.line, block.keys["keycode"][1], first, widths)


def unit_of(block: Block, asked: Asked, changes: Changes) -> Scale:
    """The unit of a block's values."""
    said = block.text("unit")
    if not said and asked.unit is not None:
        changes.add(block.line, f"the header has no Unit: {asked.unit} are taken, as --unit asks")
        return asked.unit
    unit = UNITS.get(said.replace(" ", "").lower())
    remedy = "Put a line Unit=1/100 mm into the header, or mm, 1/10 mm or 1/1000 mm, whichever it is."
    if unit is None:
        words = f"Unit is {quoted(said.encode('latin-1'))}." if said else "the header has no Unit."
        raise Unreadable(
            block.at("unit"), words, remedy if said else f"{remedy} --unit says it for all that have none."
        )
    if asked.unit not in (None, unit):
        raise Unreadable(block.at("unit"), f"Unit is {said}, but --unit asks for {asked.unit}.", "Leave --unit out.")
    return unit


def years_of(block: Block, asked: Asked, changes: Changes) -> tuple[int, int]:
    """The first year as the engine counts it, and how many there are."""
    begin, end, length = block.number("datebegin"), block.number("dateend"), block.number("length")
    if begin is None and end is not None:
        words = "the header has a DateEnd and no DateBegin."
        raise Unreadable(block.at("dateend"), words, "Put DateBegin in, or take DateEnd out of an undated series.")
    if length is None and (begin is None or end is None):
        words = "the header has no Length, and no DateBegin and DateEnd that tell it."
        raise Unreadable(block.line, words, "Put a line Length=NUMBER into it.")
    if begin is None:
        assert length is not None
        first = 1 if asked.first is None else asked.first
        how = "as --first asks" if asked.first is not None else "--first YEAR says otherwise"
        changes.add(block.line, f"the series has no DateBegin: its first year became {first} ({how})")
    else:
        first = placed(begin, asked, block.at("datebegin"), changes)
        length = length_of(block, begin, end, length, asked)
    if length < 1:
        raise Unreadable(block.at("length"), "the series has no widths.", "Take it out, or put its widths in.")
    return first, length


def length_of(block: Block, begin: int, end: int | None, length: int | None, asked: Asked) -> int:
    """How many years a dated series has; DateEnd must fit."""
    if end is None:
        assert length is not None
        return length
    is_crossing = begin < 0 < end
    if is_crossing and length is None and asked.year_zero is None:
        words = "the series goes over the year 0, and has no Length that tells whether there is one."
        raise Unreadable(block.at("dateend"), words, "Give --year-zero yes or --year-zero no.")
    if asked.year_zero == "no" and end == 0:
        raise Unreadable(
            block.at("dateend"), "DateEnd is 0, but --year-zero no says that there is none.", "Give --year-zero yes."
        )
    with_zero = end - begin + 1
    counted = with_zero - (is_crossing and asked.year_zero == "no")
    if length is None or length == counted:
        return counted
    remedy = "Correct the one that is wrong."
    if is_crossing and abs(length - counted) == 1:
        other = "no" if length < with_zero else "yes"
        if length in (with_zero, with_zero - 1):
            remedy = f"Correct the one that is wrong; or give --year-zero {other}, with which they fit."
    words = f"DateEnd is {end}, but {length:,} years from {begin} on do not end there."
    raise Unreadable(block.at("dateend"), words, remedy)


def values_of(block: Block) -> Iterator[tuple[int, str]]:
    """The values with their lines: one a line, or ten of six columns, fewer on the last line alone."""
    pieces = [(line, fields_of(line)) for line in block.data]
    is_single = all(len(fields) == 1 for _, fields in pieces)
    for place, (line, fields) in enumerate(pieces, start=1):
        if not is_single and len(fields) != A_LINE and (place < len(pieces) or len(fields) > A_LINE):
            words = f"it has {len(fields)} values, where a line before the last has {A_LINE}."
            raise Unreadable(line.number, words, "Put in what is missing (0 for an absent ring), ten values a line.")
        yield from ((line.number, text) for text in fields)


def fields_of(line: Line) -> list[str]:
    """The values of a data line."""
    body = line.body
    if b" " not in body.strip():
        return [_value(line, body.strip())]
    pieces = [body[start : start + COLUMNS] for start in range(0, len(body), COLUMNS)]
    return [_value(line, piece if len(piece) == COLUMNS else piece + b"|") for piece in pieces]


def _value(line: Line, piece: bytes) -> str:
    if not VALUE.fullmatch(piece):
        shown = quoted(piece.rstrip(b"|"))
        words = (
            "a value is missing."
            if not piece.strip()
            else f"{shown} is no value at the right of its {COLUMNS} columns."
        )
        remedy = "Put each value into six columns, ten a line, or one a line; 0 is an absent ring."
        raise Unreadable(line.number, words, remedy)
    return piece.strip().decode("ascii")


def text_of(series: Sequence[Series]) -> bytes:
    """Series as a Heidelberg text, in thousandths.

    Examples
    --------
    >>> print(text_of([Series("FEW", 1998, [12, 9])]).decode(), end="")
    HEADER:
    KeyCode=FEW
    DateBegin=1998
    DateEnd=1999
    Length=2
    Unit=1/1000 mm
    DATA:Tree
        12     9
    """
    return "".join(_block_of(each) for each in series).encode("ascii")


def _block_of(series: Series) -> str:
    head = f"HEADER:\nKeyCode={series.name}\nDateBegin={series.first}\nDateEnd={series.last}\nLength={len(series)}\n"
    widths = [f"{width:{COLUMNS}}" for width in series.widths]
    rows = ["".join(widths[start : start + A_LINE]) for start in range(0, len(widths), A_LINE)]
    return f"{head}Unit=1/1000 mm\nDATA:Tree\n" + "".join(f"{row}\n" for row in rows)
