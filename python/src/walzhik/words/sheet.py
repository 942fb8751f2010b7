"""The facts of a sheet's damaged text (number 10), for the words: the proved program names the line, and what is wrong in it is
found here. It is apart from reading sheets because nothing here decides anything.
"""

from __future__ import annotations

import re

from ..errors import Refused
from ..limits import WOOD
from .lists import Told
from .quoting import quoted
from .table import chosen

NAMES = ("breaks", "degrees", "orders", "coefs", "at")  # the sheet's lines in their order
BAD_TEXT = 10


def number_fault(text: bytes) -> str | None:
    """What keeps these bytes from being a number of the sheet, or None."""
    is_number = re.fullmatch(rb"0|-?[1-9][0-9]*", text) is not None
    facts: Told = {"is_number": is_number, "digits": len(text.lstrip(b"-")), "length": len(text)}
    facts |= {"has_blank": re.search(rb"[ \t]", text) is not None, "has_plus": text.startswith(b"+")}
    facts |= {"is_minus_zero": text == b"-0", "has_spare_zero": re.fullmatch(rb"-?0[0-9]+", text) is not None}
    row = chosen(BAD_TEXT, "number", facts)
    return row.told(facts) if row else None


def entry_fault(name: str, text: bytes) -> str | None:
    """What keeps these bytes from being an entry of the named line, or None."""
    sides = text.split(b":")
    facts: Told = {"has_pairs": name == "coefs", "sides": len(sides), "length": len(text)}
    facts |= {"is_pair": re.fullmatch(rb"[0-9-]+:[0-9-]+", text) is not None}
    faults = [(part, side, number_fault(side)) for part, side in zip(WOOD, sides)]
    part, side, fault = next((each for each in faults if each[2]), ("", b"", None))
    facts |= {"wood": part, "text": quoted(side), "fault": fault}
    row = chosen(BAD_TEXT, "entry", facts)
    return row.told(facts) if row else number_fault(text) if name != "coefs" or not text else None


def of_line(name: str, line: bytes, is_ended: bool) -> Told:
    """What is told of one of the five lines: its name and, behind it, the first entry at fault and the count of entries."""
    head = f"{name}=".encode("ascii")
    told: Told = {"name": name, "length": len(line), "is_ended": is_ended, "is_named": line.startswith(head)}
    told |= {"has_return": line.endswith(b"\r"), "found": quoted(line) if line else "empty"}
    entries = line[len(head) :].split(b",") if line[len(head) :] else []
    faults = ((at, entry, entry_fault(name, entry)) for at, entry in enumerate(entries))
    at, entry, fault = next((each for each in faults if each[2]), (None, b"", None))
    told |= {"entry": at, "text": quoted(entry), "fault": fault}
    return told | {"listed": len(entries), "entries": f"{len(entries):,}"}


def facts_of(text: bytes, place: int) -> Told | None:
    """What is told of the line at a place, or None where there is no such line."""
    lines = text.split(b"\n")
    after = lines[len(NAMES)] if len(lines) > len(NAMES) else b""
    if not 1 <= place <= len(NAMES):
        return {"follows": quoted(after) if after else "an empty line"}
    return of_line(NAMES[place - 1], lines[place - 1], place < len(lines)) if place <= len(lines) else None


def refused(text: bytes, place: int) -> Refused:
    """The refusal of a line, with what is wrong in it.

    Examples
    --------
    >>> print(refused(b"breaks=0,01\\n", 1))
    no=10,1: Line 1, breaks=: entry 1, '01', has a spare zero at its front.
    """
    return Refused.by_facts(BAD_TEXT, place, "sheet", facts_of(text, place))
