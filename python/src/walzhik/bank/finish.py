"""The end of a run: the outputs of inputs that are not there, then the manifest, the table and the page."""

from __future__ import annotations

from collections.abc import Iterator, Sequence
from heapq import merge
from pathlib import Path
from typing import IO

from ..files import written
from . import report
from .inputs import Input, shown
from .manifest import Manifest
from .options import Options
from .page import About, page
from .places import MANIFEST, PAGE, REPORT
from .progress import Progress
from .prune import kept, prune
from .records import Record
from .report import Summary
from .sketch import Picture, pictures


def reported(
    inputs: Sequence[Input],
    manifest: Manifest,
    options: Options,
    given: Sequence[str],
    progress: Progress,
    is_pruned: bool,
) -> Summary:
    """Write the manifest, the table and the page, and take away what no record names, if that is asked."""
    output = manifest.output
    gone = list(kept(inputs, manifest, is_pruned))
    outputs = {path for record in gone for path in record.outputs}
    with written(output / MANIFEST, is_synced=True) as listed, written(output / REPORT, is_synced=True) as table:
        summary = report.write(records(inputs, manifest, gone, listed, outputs), table)
    summary.kept_files, summary.cleared_files, summary.gone_files = progress.kept, progress.cleared, len(gone)
    if is_pruned:
        summary.pruned = prune(output, manifest.number, outputs, inputs)
    about = About.now(shown(output.name or str(output)), [shown(str(Path(each).absolute())) for each in given], options)
    with written(output / PAGE, is_synced=True) as file:
        file.write(page(summary, about, drawn(summary, output)).encode("utf-8"))
    manifest.finish()
    return summary


def records(
    inputs: Sequence[Input], manifest: Manifest, gone: Sequence[Record], listed: IO[bytes], outputs: set[str]
) -> Iterator[Record]:
    """The records of the inputs in order of path. All go into the next manifest as they are given, with those of inputs
    that are not there; the outputs that they name are collected."""
    present = ((each.path, manifest.of(each.path)) for each in inputs)
    here = {each.path for each in inputs}
    for path, record in merge(present, ((record.path, record) for record in gone), key=lambda pair: pair[0]):
        assert record is not None  # each input has been noted
        listed.write(record.without_seconds().line())
        outputs.update(record.outputs)
        if path in here:
            yield record


def drawn(summary: Summary, output: Path) -> list[Picture]:
    """The pictures that the page shows, from what was written; an output that has gone meanwhile has none."""
    found: list[Picture] = []
    for path in sorted({path for path, _ in summary.pictures}):
        names = sorted(name for place, name in summary.pictures if place == path)
        try:
            found += pictures(path, names, output)
        except (OSError, ValueError):
            continue
    return found
