"""The names that a run gives to its own files in the output folder, and how such a folder is known again."""

from __future__ import annotations

import os

REPORT, PAGE = "report.csv", "report.html"
MANIFEST, JOURNAL = "manifest.jsonl", "journal.jsonl"
LOCK = "run.lock"
RESERVED = (REPORT, PAGE, MANIFEST, JOURNAL, LOCK)
MARK = b"walzhik bank "  # how the lock and the journal begin
RECORD = b'{"path":'  # how a record begins, and so a manifest
INDICES, SHEETS, SHEET = ".indices.", ".sheets", ".sheet"


def is_output(folder: str) -> bool:
    """Whether a folder is the output folder of some run, finished or not.

    Examples
    --------
    >>> import tempfile
    >>> folder = tempfile.mkdtemp()
    >>> is_output(folder)
    False
    >>> with open(f"{folder}/{LOCK}", "wb") as file:
    ...     _ = file.write(MARK)
    >>> is_output(folder)
    True
    """
    return any(_begins(os.path.join(folder, name), begin) for name, begin in _KNOWN.items())


_KNOWN = {LOCK: MARK, JOURNAL: MARK, MANIFEST: RECORD}


def _begins(path: str, begin: bytes) -> bool:
    try:
        with open(os.open(path, os.O_RDONLY | os.O_NONBLOCK), "rb") as file:
            return file.read(len(begin)) == begin
    except OSError:
        return False


def is_ours(path: str) -> bool:
    """Whether a path below an output folder has the name of an output.

    Examples
    --------
    >>> is_ours("oak/roof.indices.csv"), is_ours("oak/roof.sheets/A.sheet"), is_ours("oak/notes.csv")
    (True, True, False)
    """
    folder, name = os.path.split(path)
    if os.path.basename(folder).endswith(SHEETS):
        return name.endswith(SHEET)
    return name.endswith((f"{INDICES}csv", f"{INDICES}rwl"))
