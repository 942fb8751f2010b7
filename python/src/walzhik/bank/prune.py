"""Outputs of inputs that are not there: which records stay in the manifest, and what is taken away when asked."""

from __future__ import annotations

import os
from collections.abc import Iterator, Sequence
from pathlib import Path

from . import lock
from .inputs import Input, stem
from .manifest import Known
from .outputs import take_away, writing
from .places import is_ours
from .records import Record


def kept(inputs: Sequence[Input], known: Known, is_pruned: bool) -> Iterator[Record]:
    """The records of inputs that were not found this time and whose outputs stand; with `is_pruned` only those that may
    lie where nothing could be read."""
    taken = {stem(each.path) for each in inputs if not each.complaint}
    unread = tuple(unread_places(inputs))
    for record in known.gone([each.path for each in inputs]):
        if stem(record.path) in taken or (is_pruned and not record.path.startswith(unread)):
            continue
        outputs = {path: made for path, made in record.outputs.items() if (known.output / path).is_file()}
        if outputs:
            yield record._replace(outputs=outputs)


def unread_places(inputs: Sequence[Input]) -> Iterator[str]:
    """How the paths begin of what may lie in folders that could not be searched."""
    for each in inputs:
        if each.complaint:
            place = each.path.rstrip("/")
            yield "" if place == "." else f"{place}/"


def unnamed(output: Path, named: set[str], inputs: Sequence[Input]) -> Iterator[str]:
    """The outputs below a folder that no record names, by their paths below it."""
    unread = tuple(unread_places(inputs))
    for folder, _, names in os.walk(output):
        for name in names:
            path = os.path.relpath(os.path.join(folder, name), output)
            if is_ours(path) and path not in named and not path.startswith(unread):
                yield path


def prune(output: Path, number: str, named: set[str], inputs: Sequence[Input]) -> int:
    """Take away the outputs that no record names, and say how many there were."""
    found = sorted(unnamed(output, named, inputs))
    with writing("", output), lock.held(output, number):
        for path in found:
            take_away(output / path)
    return len(found)
