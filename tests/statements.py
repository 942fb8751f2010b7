"""Holds the statements of docs/THEOREMS.md to the crates: each is there under its name, proved, and met by an instance.

usage: statements.py [--self-test]

The theorem close_cells of a crate is `pub close_cells : CloseCells` in its
proofs/, and CloseCells is a definition of its specs/. It is applied in a file
of instances, or the page's second table of instances names the file that meets
its hypotheses. No paragraph of the page is longer than six lines. --self-test
shows that each kind of fault is found.
"""

import re
import sys
from pathlib import Path

from names import status_of

ROOT = Path(__file__).resolve().parent.parent
CRATES = ROOT / "crates"
PAGE = ROOT / "docs" / "THEOREMS.md"
INSTANCES = re.compile("Instances|Examples|Cases")
LONGEST = 6                  # lines of a paragraph
# The one theorem whose statement is a type with another name: it has parts of its own.
OTHER_NAMES = {"cut-weights-holds": "CutWeights"}
# What a row of the second table may have in place of a file.
WITHOUT = ("everything:", "nothing:")
NAMES = r"[a-z][\w-]*(?:, [a-z][\w-]*)*"


def sources(pattern):
    return {path: path.read_text(encoding="utf-8") for path in CRATES.glob(pattern)}


def statement_name(theorem):
    """The statement of a theorem: close_cells has CloseCells, and so has close-cells."""
    return OTHER_NAMES.get(theorem) or "".join(word[0].upper() + word[1:] for word in re.split("[-_]", theorem))


def theorems(page):
    """Each theorem of the tables `| names | words | crate: Files |`, with the crates that its row names."""
    rows = re.findall(rf"^\| ({NAMES}) \|.*\| (\w+: [\w:;, ]+) \|$", page, re.MULTILINE)
    return [(name, re.findall(r"(\w+): ", where)) for names, where in rows for name in names.split(", ")]


def met_elsewhere(page):
    """The second table of instances: for each theorem the words of its row."""
    part = page.partition("| Statements | Their hypotheses are met by |")[2].partition("\n\n")[0]
    return {name: words for names, words in re.findall(rf"^\| ({NAMES}) \| (.*) \|$", part, re.MULTILINE)
            for name in names.split(", ")}


def is_applied(theorem, instances):
    name = re.compile(rf"(?<![\w-]){re.escape(theorem)}(?![\w-])")
    return any(name.search(text) for text in instances)


def place_fault(theorem, crates, proofs, specs):
    """What is wrong with where a theorem stands, or None."""
    statement = statement_name(theorem)
    start = re.compile(rf"^ *pub {re.escape(theorem)} : {statement}$", re.MULTILINE)
    own = [path for path, text in proofs.items() if path.parts[-3] in crates and start.search(text)]
    if not own:
        return f"no proof `pub {theorem} : {statement}` in {', '.join(crates)}"
    defined = re.compile(rf"^(?:abbrev |unfoldable )?pub (?:record |data )?{statement}(?= )", re.MULTILINE)
    stated = any(path.parts[-3] in crates and defined.search(text) for path, text in specs.items())
    return None if stated else f"no statement {statement} in specs/ of {', '.join(crates)}"


def instance_fault(theorem, instances, elsewhere):
    """What is wrong with the instance of a theorem, or None."""
    row = elsewhere.get(theorem)
    if is_applied(theorem, instances):
        return f"{theorem} has an instance, and a row that says it has none" if row else None
    if row is None:
        return f"{theorem} has no instance"
    if row.startswith(WITHOUT):
        return None
    named = re.fullmatch(r"(\w+): (\w+)", row)
    there = named is not None and (CRATES / named[1] / "proofs" / f"{named[2]}.antt").exists()
    return None if there else f"{theorem}: no file of instances {row!r}"


def long_paragraphs(page):
    pieces = re.split(r"\n\n|\n(?=- )", page)
    return [f"a paragraph of {len(piece.splitlines())} lines: {piece[:60]!r}" for piece in pieces
            if len(piece.splitlines()) > LONGEST and not piece.lstrip("\n").startswith("|")]


def faults(page):
    proofs, specs = sources("*/proofs/*.antt"), sources("*/specs/*.antt")
    used = [re.sub(r"^\s*(?:--|use ).*$", "", text, flags=re.MULTILINE)
            for path, text in proofs.items() if INSTANCES.search(path.stem)]
    elsewhere, found, named = met_elsewhere(page), [], theorems(page)
    for theorem, crates in named:
        found += [place_fault(theorem, crates, proofs, specs), instance_fault(theorem, used, elsewhere)]
    found += [f"a row of instances for {name}, which is no theorem" for name in elsewhere if name not in dict(named)]
    return [fault for fault in found if fault] + long_paragraphs(page), len(named)


def self_test():
    """Each kind of fault is found."""
    row = "| nodes-rise | x | theorems_nodes: Nodes |\n"
    wrong = {row.replace("nodes-rise", "nodes_fall"): "no proof `pub nodes_fall : NodesFall` in theorems_nodes",
             row.replace("nodes-rise", "middle-nodes-are-lines"):
                 "no proof `pub middle-nodes-are-lines : MiddleNodesAreLines` in theorems_nodes",
             row.replace("theorems_nodes", "theorems_lines"): "no proof `pub nodes-rise : NodesRise` in theorems_lines",
             row.replace("nodes-rise", "low_orders_are_built").replace("theorems_nodes: Nodes", "theorems_acceptance: Acceptance"):
                 "low_orders_are_built has no instance",
             row + "\n| Statements | Their hypotheses are met by |\n|---|---|\n| nodes-rise | theorems_nodes: Instances |\n":
                 "nodes-rise has an instance, and a row that says it has none",
             row + "\n| Statements | Their hypotheses are met by |\n|---|---|\n| nodes-fell | theorems_nodes: Instances |\n":
                 "a row of instances for nodes-fell, which is no theorem",
             "a\n" * (LONGEST + 1): f"a paragraph of {LONGEST + 1} lines: {('a' + chr(10)) * (LONGEST + 1)!r}"}
    missed = [fault for text, fault in wrong.items() if fault not in faults(text)[0]]
    missed += [f"found in a right row: {fault}" for fault in faults(row)[0]]
    for fault in missed:
        print(f"self-test: {fault}")
    return 1 if missed else 0


def main():
    page = PAGE.read_text(encoding="utf-8")
    if sys.argv[1:] == ["--self-test"]:
        return self_test()
    found, count = faults(page)
    return status_of([f"statements: {fault}" for fault in found], f"statements: {count} theorems")


if __name__ == "__main__":
    sys.exit(main())
