#!/usr/bin/env python3
"""The files of the R package that are made from others: the tables of words and templates, the examples, and cases with the answers of the
rational program. R's tests run from a package that can't reach the rest of the tree, so these stand in r/ as copies.

    python3 tests/r_made.py            says which of them are not in step with what they are made from; status 1 if any is
    python3 tests/r_made.py --write    makes them again

Python's standard library only."""
import ast
import json
import sys
from pathlib import Path

ROOT = Path(__file__).resolve().parent.parent
sys.path.insert(0, str(ROOT / "tests" / "reference"))

from r_cases import case_files  # noqa: E402

PACKAGE = ROOT / "r"
WORDS = ROOT / "python" / "src" / "walzhik" / "words" / "words.tsv"
WORDS_HEAD = """\
# The words of every refusal, by number and case: for what a call was given, and under which conditions. Made by tests/r_made.py from
# python/src/walzhik/words/words.tsv, which the command shares: change that table and make this file again.

refusal_words <- list(
"""
TEMPLATES = ROOT / "python" / "src" / "walzhik" / "fit_template.py"
TEMPLATES_HEAD = """\
# The templates of fitted curves: from how many rings on, where their segments start, and the degrees. Made by tests/r_made.py
# from the command's templates in python/src/walzhik/fit_template.py, so that both fit the same curves: change that table and make this
# file again.

templates <- list(
"""
# The sheet's words and the options of the command, and what R has for them: its arguments, whose entries count from 1.
ARGUMENTS = {
    "(--first RING)": "(first = RING)",
    "(--nearest)": "(./walzhik coefficients --nearest)",
    "(--header N)": "(header = N)",
    "(--hundredths or --thousandths)": "(unit)",
    "(--strict)": "(strict = TRUE)",
    "degrees= lists": "degrees lists",
    "breaks= lists": "breaks lists",
    "orders= {orders}": "orders {orders}",
    "coefs= lists": "coefficients lists",
    "List as many pairs as": "List as many coefficients as",
    "Pair {pair} of coefs= is {earlywood}:{latewood}, with {wood} {number}": "coefficients[{entry}] is {number}",
    "Breakpoint {place} is": "breaks[{place}] is",
    "but breakpoint {before}, before": "but breaks[{before}], before",
    "and breakpoint {first} is": "and breaks[{first}] is",
    "Stretch {place}, from": "Stretch {place} (degrees[{place}]), from",
    "From stretch {place}, at": "From stretch {place} (degrees[{place}]), at",
    "Join {place}, at": "Join {place} (orders[{place}]), at",
    "Entry {place} of at= is": "positions[{place}] is",
    "{stretches}, counted from 0.": "{stretches}.",
    "The list has {ordinates}": "ordinates lists {ordinates}",
    "Ordinate {place} is": "ordinates[{place}] is",
    "one pair of coefficients more": "one coefficient more",
    "or cut the wood into two sheets": "or cut the wood into two curves",
    "Tell the maintainers, with the sheet": "Tell the maintainers, with the call",
}
OF_THE_COMMAND = ("(--", "= lists", "at= ", "counted from 0")
WORD_CASES = ROOT / "python" / "tests" / "words" / "cases.tsv"
IN_R = {"lists", "series", "text", "file", "file-then", "note"}  # what R gives the engine; it reads no sheets
COLUMNS = ["number", "case", "given", "when", "counts", "words", "remedy"]


def r_text(text):
    """A string of R; the table is ASCII, for which JSON's quoting is R's."""
    if not text.isascii():
        raise SystemExit(f"{WORDS}: not ASCII: {text}")
    return json.dumps(text)


def in_r(sentence):
    for option, argument in ARGUMENTS.items():
        sentence = sentence.replace(option, argument)
    if any(part in sentence for part in OF_THE_COMMAND):
        raise SystemExit(f"{WORDS}: words that R has none for: {sentence}")
    return sentence


def words_file():
    header, *rows = (line.split("\t") for line in WORDS.read_text(encoding="utf-8").splitlines())
    if header != COLUMNS:
        raise SystemExit(f"{WORDS}: other columns than {', '.join(COLUMNS)}")
    entries = []
    for number, case, given, when, counts, words, remedy in rows:
        if IN_R.isdisjoint(given.split()):
            continue
        chosen = f"given = {r_text(given)}, when = {r_text(when)}, counts = {r_text(counts)}"
        told = f"{chosen},\n    words = {r_text(in_r(words))},\n    remedy = {r_text(in_r(remedy))}"
        entries.append(f"  {r_text(f'{number} {case}')} = c({told})")
    return (WORDS_HEAD + ",\n".join(entries) + "\n)\n").encode("ascii")


def templates_file():
    """The table of templates, which the package's source holds as a constant."""
    statements = ast.parse(TEMPLATES.read_text(encoding="utf-8")).body
    [table] = [ast.literal_eval(each.value) for each in statements
               if isinstance(each, ast.Assign) and each.targets[0].id == "TEMPLATES"]
    entries = [f"  list(rings = {rings}, starts = c({', '.join(map(str, starts))}), degrees = c({', '.join(map(str, degrees))}))"
               for rings, starts, degrees in table]
    return (TEMPLATES_HEAD + ",\n".join(entries) + "\n)\n").encode("ascii")


def copies():
    """Where each example goes: the Tucson files of the help pages, and the refusals with their explanations for the tests, but for
    those of a sheet's text (number 10), which R does not read; and the cases of the choice of words."""
    yield PACKAGE / "tests" / "testthat" / "words" / "cases.tsv", WORD_CASES.read_bytes()
    for path in sorted((ROOT / "examples" / "tucson").glob("*.rwl")):
        yield PACKAGE / "inst" / "extdata" / path.name, path.read_bytes()
    for path in sorted((ROOT / "examples" / "refusals").iterdir()):
        if path.suffix in (".rwl", ".sheet", ".explained") and not path.name.startswith("refused_10"):
            yield PACKAGE / "tests" / "testthat" / "refusals" / path.name, path.read_bytes()


def made():
    """Every made file with its content."""
    files = {PACKAGE / "R" / "words.R": words_file(), PACKAGE / "R" / "templates.R": templates_file()}
    files |= dict(copies())
    files |= {PACKAGE / "tests" / "testthat" / "cases" / name: text.encode("ascii") for name, text in case_files().items()}
    return files


def stray(files):
    """Files in the folders of made files that nothing makes any more."""
    folders = {path.parent for path in files} - {PACKAGE / "R"}
    return [path for folder in sorted(folders) if folder.exists() for path in folder.iterdir() if path not in files]


def in_step(kept, text, script):
    """The status of a script that keeps one file of answers of Python's: it is made with --write, otherwise compared."""
    if sys.argv[1:] == ["--write"]:
        kept.parent.mkdir(exist_ok=True)
        kept.write_text(text, encoding="ascii")
        return 0
    if kept.exists() and kept.read_text(encoding="ascii") == text:
        return 0
    print(f"not in step: {kept.relative_to(ROOT)}; make it with: PYTHONPATH=python/src python3 tests/{script} --write")
    return 1


def main():
    files = made()
    if sys.argv[1:] == ["--write"]:
        for path, content in files.items():
            path.parent.mkdir(parents=True, exist_ok=True)
            path.write_bytes(content)
        for path in stray(files):
            path.unlink()
        return 0
    out_of_step = [path for path, content in files.items() if not path.exists() or path.read_bytes() != content]
    for path in [*out_of_step, *stray(files)]:
        print(f"not in step: {path.relative_to(ROOT)}; make it with: python3 tests/r_made.py --write")
    return 1 if out_of_step or stray(files) else 0


if __name__ == "__main__":
    sys.exit(main())
