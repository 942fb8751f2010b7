"""Checks that the second library uses of the engine what its curve call promises, and for the table of indices texts and names.

usage: second_library.py [--root FOLDER]

The calls are read from the source of its crates, the imports from their source, specs and proofs. A call of another
crate's function must be one that is named here. A module of another crate must be one that holds definitions, statements on
definitions with their proofs, laws of numbers, or what the contracts name. Constants and enums of lower crates may be used
from where they stand. None of its crates may reach crate walzhik, the first library.
"""

import argparse
import re
import sys
from collections.abc import Iterator
from pathlib import Path
from typing import NamedTuple

FIRST_LIBRARY = "walzhik"
KIT = {"std"}
WITHIN = {"crate", "self", "super"}
DEFINITIONS_AND_LAWS = (
    r"base_exact\.(specs|proofs)",
    r"base_outcome\.(specs|proofs)",
    r"spec_\w+\.(specs|proofs)",
    r"theorems_\w+\.(specs|proofs)",
    r"build_space\.specs\.Machine",
    r"curve_ordinates\.specs\.Wood",
)
TEXTS_AND_BUFFERS = (r"base_(text|print)\.(specs|proofs)", r"tucson_putting\.(specs|proofs)", r"tucson_series\.proofs\.Tests")


class Uses(NamedTuple):
    """What a crate may use of others.

    Attributes
    ----------
    calls : frozenset of str
        The functions that its code may call.
    modules : tuple of str
        Patterns of the modules that it may import, after the word Rattle.
    """

    calls: frozenset[str]
    modules: tuple[str, ...]


ALLOWED = {
    "indices_rings": Uses(frozenset(), DEFINITIONS_AND_LAWS),
    "indices": Uses(
        frozenset(
            {
                "base_outcome::refuse_first",
                "curve::curve",
                "indices_rings::first_bad_ring",
                "indices_rings::write_indices",
            }
        ),
        (*DEFINITIONS_AND_LAWS, r"curve\.specs", r"indices_rings\.specs"),
    ),
    "table_numbers": Uses(
        frozenset({"base_division::magnitude", "base_division::round_div", "base_print::digit_count"}),
        (*DEFINITIONS_AND_LAWS, *TEXTS_AND_BUFFERS),
    ),
    "table_name": Uses(
        frozenset({"base_print::put", "base_print::put_text", "tucson_columns::trim_blanks"}),
        (*DEFINITIONS_AND_LAWS, *TEXTS_AND_BUFFERS),
    ),
    "table_line": Uses(
        frozenset(
            {
                "table_numbers::millionths",
                "table_numbers::whole_size",
                "table_numbers::thousandths_size",
                "table_numbers::millionths_size",
                "table_numbers::put_byte",
                "table_numbers::put_whole",
                "table_numbers::put_thousandths",
                "table_numbers::put_millionths",
            }
        ),
        (*DEFINITIONS_AND_LAWS, *TEXTS_AND_BUFFERS),
    ),
    "table_lines": Uses(
        frozenset(
            {"table_line::numbers_size", "table_line::put_numbers", "table_name::put_name", "tucson_lines::is_name"}
        ),
        (*DEFINITIONS_AND_LAWS, *TEXTS_AND_BUFFERS, r"table_name\.specs"),
    ),
    "walzhik_indices": Uses(
        frozenset({"indices::indices", "table_lines::ring_lines", "walzhik_reply::reply_of"}),
        (*DEFINITIONS_AND_LAWS, r"indices\.specs", r"walzhik_reply\.specs"),
    ),
}
BYTES_OR_COMMENT = re.compile(r"//[^\n]*|\bb\"(?:[^\"\\]|\\.)*\"|\bb'(?:[^'\\]|\\x[0-9a-fA-F]{2}|\\.)'", re.S)
CLAUSE = re.compile(r"\b(?:requires|ensures)\b(?:\s+\w+)?\s*\{")
GHOST = re.compile(r"^\s*ghost\s+use\s[^;]*;", re.M)
USE = re.compile(r"^\s*(?:pub\s+)?use\s+([^;]*);", re.M)
PATH = re.compile(r"[A-Za-z_]\w*(?:\s*::\s*[A-Za-z_]\w*)+")
MODULE = re.compile(r"\bRattle\.(\w+(?:\.[^\s.{}();,]+)*)")
COMMENT_LINE = re.compile(r"(?:--|//)[^\n]*")


def dependencies(root: Path) -> dict[str, list[str]]:
    """What each crate names, by crates.txt."""
    lines = (line.partition("#")[0] for line in (root / "crates.txt").read_text().splitlines())
    return {name.split()[0]: named.split() for name, _, named in (line.partition(":") for line in lines if line.strip())}


def reached(listed: dict[str, list[str]], crate: str) -> set[str]:
    """The crate and all that it depends on."""
    found: set[str] = set()
    waiting = [crate]
    while waiting:
        name = waiting.pop()
        if name not in found:
            found.add(name)
            waiting += listed.get(name, [])
    return found


def code_of(text: str) -> str:
    """A source file without comments, bytes and contracts.

    Examples
    --------
    >>> code_of("fn f() -> u8 ensures low { record { x = y } ≡ b::c } { b'}' }").split()
    ['fn', 'f()', '->', 'u8', '{', '}']
    """
    code = BYTES_OR_COMMENT.sub(" ", text)
    while clause := CLAUSE.search(code):
        end, depth = clause.end(), 1
        while depth and end < len(code):
            depth += (code[end] == "{") - (code[end] == "}")
            end += 1
        code = f"{code[: clause.start()]} {code[end:]}"
    return code


def foreign_calls(text: str, own: set[str], allowed: frozenset[str]) -> Iterator[str]:
    """The functions of other crates that a source file names, without those allowed.

    An import of another crate's item is one, because its calls would no longer show whose they are. Paths that end in a
    capital are types, variants and constants; paths that begin with one of its own modules stay within it.

    Examples
    --------
    >>> list(foreign_calls("let a = curve::curve(x); let b = build::build(y);", set(), frozenset({"curve::curve"})))
    ['the call build::build']
    >>> list(foreign_calls("fn f() ensures { a } { build::build(y) }", set(), frozenset({"curve::curve"})))
    ['the call build::build']
    >>> list(foreign_calls("if n < build_cells::TABLE_CELLS { return Answer::Refused(1, 0); }", set(), frozenset()))
    []
    """
    inside = KIT | WITHIN | own
    code = code_of(GHOST.sub(" ", text))
    for imported in USE.findall(code):
        if re.split(r"\W", imported.strip(), maxsplit=1)[0] not in inside:
            yield f"the import {' '.join(imported.split())}: write the path where it is used"
    for path in PATH.findall(USE.sub(" ", code)):
        name = re.sub(r"\s", "", path)
        parts = name.split("::")
        if parts[0] not in inside and parts[0][0].islower() and parts[-1][0].islower() and name not in allowed:
            yield f"the call {name}"


def foreign_modules(text: str, crate: str, allowed: tuple[str, ...]) -> Iterator[str]:
    """The modules of other crates that a file names, without those allowed.

    Examples
    --------
    >>> list(foreign_modules("use Rattle.curve.proofs.Parts.{held}", "indices", (r"curve\\.specs",)))
    ['the module curve.proofs.Parts']
    >>> list(foreign_modules("use Rattle.indices.specs.Rings.{here}", "indices", ()))
    []
    """
    for module in MODULE.findall(COMMENT_LINE.sub(" ", text)):
        owner = module.partition(".")[0]
        if owner != crate and owner not in KIT and not any(re.match(rf"{one}(\.|$)", module) for one in allowed):
            yield f"the module {module}"


def faults(root: Path) -> Iterator[str]:
    """All that the second library uses and may not."""
    listed = dependencies(root)
    for crate, uses in ALLOWED.items():
        if crate not in listed:
            yield f"crates.txt: crate {crate} is missing"
        elif FIRST_LIBRARY in reached(listed, crate):
            yield f"crates.txt: {crate} reaches crate {FIRST_LIBRARY}"
        own = {path.stem for path in (root / "crates" / crate / "src").glob("**/*.rt")}
        for path in sorted((root / "crates" / crate).glob("**/*")):
            if path.suffix not in (".rt", ".antt") or path.relative_to(root / "crates" / crate).parts[0] == "out":
                continue
            text = path.read_text()
            found = list(foreign_calls(text, own, uses.calls)) if path.suffix == ".rt" else []
            for fault in [*found, *foreign_modules(text, crate, uses.modules)]:
                yield f"{path.relative_to(root)}: {fault}"


def main() -> int:
    parser = argparse.ArgumentParser(description="check what the second library uses")
    parser.add_argument("--root", type=Path, default=Path(__file__).resolve().parent.parent)
    root = parser.parse_args().root
    found = list(faults(root))
    for fault in found:
        print(f"second library: {fault}")
    if not found:
        called = ", ".join(sorted(call for uses in ALLOWED.values() for call in uses.calls))
        print(f"second library: {' and '.join(ALLOWED)} call {called}, and import what they may")
    return 1 if found else 0


if __name__ == "__main__":
    sys.exit(main())
