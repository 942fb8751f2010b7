"""Holds the definitions against docs/SPECIFICATION.md: what a comment quotes are its words, and each § names its definitions.

usage: quotations.py [--self-test]

Every text in quotation marks in a comment of the crates must stand, line breaks and marks of emphasis apart, in the § that the comment
names next after it (or, where none comes after it, last before it); "before § 1" is the page's head. Where a comment names a paragraph,
`(§ 16, the header and the other lines)`, a § with paragraphs that begin in bold has these. Every § ends with a line
`Definitions: crate: File, File; crate: File.`; each of these files is there and names the §, and every file of definitions in the crates
spec_* is named. --self-test shows that each kind of fault is found.
"""

import re
import sys
from collections.abc import Iterator
from pathlib import Path

from names import CRATES, ROOT, crate_names, status_of

HEAD = "before § 1"
SECTION = re.compile(r"(before )?§ (\d+)")


def plain(text: str) -> str:
    """The text with single blanks, without marks of emphasis."""
    return re.sub(r"\s+", " ", re.sub(r"[*`]", "", text)).strip()


def sections(page: str) -> dict[str, str]:
    """The text of each §, by its number as a comment writes it."""
    parts = re.split(r"^(?=## \d+\.)", page, flags=re.MULTILINE)
    numbers = [re.match(r"## (\d+)\.", part) for part in parts]
    return {f"§ {number[1]}" if number else HEAD: part for number, part in zip(numbers, parts)}


def comments(text: str) -> Iterator[tuple[int, str]]:
    """Each run of comment lines, with the number of its first line."""
    lines: list[str] = []
    start = 0
    for number, line in enumerate([*text.splitlines(), ""], 1):
        comment = re.match(r"\s*(?:--|//) ?(.*)", line)
        if comment:
            start = start if lines else number
            lines.append(comment[1])
        elif lines:
            yield start, plain(" ".join(lines))
            lines = []


def name_of(found: re.Match[str]) -> str:
    """A § as the page's sections are named."""
    return HEAD if found[1] else f"§ {found[2]}"


def section_of(comment: str, start: int, end: int) -> str | None:
    """The § of the quotation from start to end."""
    before = list(SECTION.finditer(comment, 0, start))
    named = SECTION.search(comment, end) or (before[-1] if before else None)
    return name_of(named) if named else None


def quotation_faults(comment: str, page: dict[str, str]) -> list[str]:
    """What is wrong with the quotations of one comment."""
    faults = []
    for quotation in re.finditer(r'"([^"]*)"', comment):
        section = section_of(comment, *quotation.span())
        if section is None:
            faults.append(f"no § is named for {quotation[0]}")
        elif section not in page:
            faults.append(f"there is no {section}, named for {quotation[0]}")
        elif quotation[1] not in page[section]:
            faults.append(f"not in {section}: {quotation[0]}")
    return faults + (["a quotation is not closed"] if comment.count('"') % 2 else [])


def paragraph_faults(comment: str, page: str) -> list[str]:
    """Paragraphs that a comment names and the § does not have."""
    faults = []
    for named in re.finditer(r"\(§ (\d+), ([^)\"]+)\)", comment):
        text = sections(page).get(f"§ {named[1]}", "")
        begun = {bold.rstrip(".").lower() for bold in re.findall(r"^\*\*(.+?)\*\*", text, re.MULTILINE)}
        parts = named[2].split(" and ") if begun and named[2][0].isalpha() else []
        faults += [f"§ {named[1]} has no paragraph {part}" for part in parts if part not in begun]
    return faults


def named_files(line: str) -> list[tuple[str, str]]:
    """The crates and files of a line of definitions."""
    places = (place.partition(": ") for place in line.rstrip(".").split("; "))
    return [(crate, name) for crate, _, names in places for name in names.split(", ")]


def definition_faults(section: str, text: str, crates: set[str]) -> list[str]:
    """What is wrong with the line of definitions of one §."""
    lines = re.findall(r"^Definitions: ((?:.+\n?)+)", text, re.MULTILINE)
    if len(lines) != 1:
        return [f"{section} has {len(lines)} lines of definitions"]
    faults = []
    for crate, name in named_files(plain(lines[0])):
        path = CRATES / crate / "specs" / f"{name}.antt"
        if crate not in crates or not path.exists():
            faults.append(f"{section} names {crate}: {name}, which is not there")
        elif section not in {
            name_of(found)
            for _, comment in comments(path.read_text(encoding="utf-8"))
            for found in SECTION.finditer(comment)
        }:
            faults.append(f"{crate}: {name} does not name {section}, whose definitions it has")
    return faults


def unnamed(page: str, crates: set[str]) -> list[str]:
    """Files of definitions that no § names."""
    named = {
        pair
        for line in re.findall(r"^Definitions: ((?:.+\n?)+)", page, re.MULTILINE)
        for pair in named_files(plain(line))
    }
    files = {
        (crate, path.stem)
        for crate in crates
        if crate.startswith("spec_")
        for path in (CRATES / crate / "specs").glob("[A-Z]*.antt")
    }
    return [f"no § names {crate}: {name}" for crate, name in sorted(files - named) if name != "Lib"]


def self_test() -> int:
    """Each kind of wrong quotation and line of definitions is found, and right ones are not."""
    page = {HEAD: "halves upwards", "§ 1": "m from 1 to 48", "§ 12": "19 where that sum is not zero"}
    wrong = {
        '"m from 1 to 12" (§ 1)': 'not in § 1: "m from 1 to 12"',
        '"m from 1 to 48" (§ 12)': 'not in § 12: "m from 1 to 48"',
        '"m from 1 to 48"': 'no § is named for "m from 1 to 48"',
        '"m from 1 to 48" (§ 99)': 'there is no § 99, named for "m from 1 to 48"',
        '"m from 1 to 48 (§ 1)': "a quotation is not closed",
    }
    missed = [text for text, fault in wrong.items() if fault not in quotation_faults(text, page)]
    right = ['"m from 1 to 48" (§ 1)', '(§ 12): "19 where that sum is not zero"', '"halves upwards" (before § 1)']
    missed += [text for text in right if quotation_faults(text, page)]
    paragraphs = "## 16. Files\n\n**The text.** It ends.\n\n**A strict line** has columns.\n"
    if paragraph_faults("(§ 16, the text and the lines)", paragraphs) != ["§ 16 has no paragraph the lines"]:
        missed.append("a paragraph that is not there")
    if paragraph_faults("(§ 16, the text and a strict line)", paragraphs):
        missed.append("paragraphs that are there")
    lines = {
        "Definitions: spec_spline: Spaces.": "§ 1 names spec_spline: Spaces, which is not there",
        "Definitions: spec_splines: Space.": "§ 1 names spec_splines: Space, which is not there",
        "Definitions: spec_spline: Conditions.": "spec_spline: Conditions does not name § 1, whose definitions it has",
        "no line": "§ 1 has 0 lines of definitions",
    }
    missed += [text for text, fault in lines.items() if fault not in definition_faults("§ 1", text, crate_names())]
    missed += (
        []
        if "no § names spec_spline: Space" in unnamed("Definitions: spec_spline: Step.\n", crate_names())
        else ["a file without §"]
    )
    for text in missed:
        print(f"self-test: {text}")
    return 1 if missed else 0


def main() -> int:
    """Check the tree, or the check itself."""
    if sys.argv[1:] == ["--self-test"]:
        return self_test()
    page = (ROOT / "docs" / "SPECIFICATION.md").read_text(encoding="utf-8")
    crates = crate_names()
    texts = {section: plain(text) for section, text in sections(page).items()}
    faults = [
        fault for section, text in sections(page).items() for fault in definition_faults(section, text, crates)
    ] + unnamed(page, crates)
    count = 0
    for path in sorted(path for part in ("src", "specs", "proofs") for path in CRATES.glob(f"*/{part}/**/*") if path.suffix in (".antt", ".rt")):
        for line, comment in comments(path.read_text(encoding="utf-8")):
            count += len(re.findall(r'"[^"]*"', comment))
            found = quotation_faults(comment, texts) + paragraph_faults(comment, page)
            faults += [f"{path.relative_to(ROOT)}:{line}: {fault}" for fault in found]
    return status_of(faults, f"quotations: {count} in comments, {len(texts)} sections")


if __name__ == "__main__":
    sys.exit(main())
