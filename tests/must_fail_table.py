"""Checks that every edit that docs/MUST-FAIL.md names is there, that every row of it names one, and that every edit can be applied: what it
takes out stands in its file exactly once.

usage: must_fail_table.py [--root FOLDER]
"""

import argparse
import re
import sys
from collections.abc import Iterator
from pathlib import Path

EDIT = re.compile(r"`(\w+)/(\w+)`")
HEADINGS = ("| Kind of mistake |", "|---|")


def faults(text: str, edits: set[str]) -> Iterator[str]:
    """What is wrong with the page, given the edits that there are.

    Examples
    --------
    >>> list(faults("| a sign is another | `base_print/plus_for_minus` |", {"base_print/plus_for_minus"}))
    []
    >>> list(faults("| a sign is another | `base_print/plus` |", {"base_print/plus_for_minus"}))
    ['no edit base_print/plus']
    >>> list(faults("| a sign is another | nothing |", set()))
    ['a row without an edit: | a sign is another | nothing |']
    """
    for line in text.splitlines():
        if not line.startswith("|") or line.startswith(HEADINGS):
            continue
        named = ["/".join(edit) for edit in EDIT.findall(line)]
        if not named:
            yield f"a row without an edit: {line}"
        for edit in named:
            if edit not in edits:
                yield f"no edit {edit}"


def applied(edit: str, files: dict[str, str]) -> str:
    """Why an edit can't be applied to the files of its crate; nothing where it can. Later replacements see the earlier ones.

    Examples
    --------
    >>> applied("file: src/lib.rt\\nold: a + b\\nnew: a - b\\n", {"src/lib.rt": "let c = a + b;"})
    ''
    >>> applied("file: src/lib.rt\\nold: a\\nnew: b\\n", {"src/lib.rt": "let c = a + a;"})
    "'a' stands 2 times in src/lib.rt"
    >>> applied("file: src/lib.rt\\n", {"src/lib.rt": ""})
    'it replaces nothing'
    """
    files, name, old, pairs = dict(files), "", "", 0
    for line in edit.splitlines():
        word, _, rest = line.partition(":")
        if word == "file":
            name = rest.strip()
        elif word == "old":
            old = rest[1:]
        elif word == "new":
            times = files.get(name, "").count(old) if old else 0
            if times != 1:
                return f"{old!r} stands {times} times in {name}"
            files[name] = files[name].replace(old, rest.removeprefix(" "))
            pairs += 1
    return "" if pairs else "it replaces nothing"


def unfit(crates: Path) -> Iterator[str]:
    """Which edits can't be applied, and why."""
    for edit in sorted(crates.glob("*/must-fail/*.edit")):
        crate = edit.parent.parent
        files = {
            path.relative_to(crate).as_posix(): path.read_text()
            for part in ("src", "specs", "proofs")
            for path in (crate / part).rglob("*.*")
            if path.is_file()
        }
        if why := applied(edit.read_text(), files):
            yield f"{crate.name}/{edit.stem}: {why}"


def main() -> int:
    parser = argparse.ArgumentParser(description="check the table of must-fail edits")
    parser.add_argument("--root", type=Path, default=Path(__file__).resolve().parent.parent)
    root = parser.parse_args().root
    edits = {f"{path.parent.parent.name}/{path.stem}" for path in (root / "crates").glob("*/must-fail/*.edit")}
    text = (root / "docs" / "MUST-FAIL.md").read_text()
    found = [*faults(text, edits), *unfit(root / "crates")]
    for fault in found:
        print(f"must-fail table: {fault}")
    named = {"/".join(edit) for edit in EDIT.findall(text)}
    print(f"must-fail table: {len(named)} of {len(edits)} edits named, {len(found)} faults")
    return 1 if found else 0


if __name__ == "__main__":
    sys.exit(main())
