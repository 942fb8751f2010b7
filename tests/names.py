"""Holds names against the tree: every crate, file, function, definition and theorem that a page or a comment names is there.

usage: names.py [--self-test]

Pages are the *.md files of the root, docs/ and tests/; comments are those of the crates. --self-test shows that each kind of wrong name is
found.
"""

import re
import sys
from pathlib import Path

ROOT = Path(__file__).resolve().parent.parent
CRATES = ROOT / "crates"
SOURCES = (".antt", ".rt", ".py", ".rs", ".c", ".h", ".sh", ".R", ".js", ".tsv", ".html", ".css", ".edit")
# Notes of the requests' landings tell what was there then: only their links are held to the tree (tests/pages.py).
PAGES = ("*.md", "docs/*.md", "tests/*.md")
# The page of the port sets old names beside new ones.
OLD_NAMES = ROOT / "docs" / "PORT.md"
# Words that look like names of the tree and are none.
FOREIGN = {"dask-scheduler", "dask-worker", "apt-get", "curve_rust"}
# The kit's crates, which comments name.
KIT = {"std"}
FLOORS = "base|spec|theorems|build|curve|recover|indices|sheet|tucson|walzhik"
FILES = r"[A-Z]\w*(?:, [A-Z]\w*)*"


def pages() -> list[Path]:
    return sorted({path for pattern in PAGES for path in ROOT.glob(pattern)} - {OLD_NAMES})


def crate_names() -> set[str]:
    lines = (ROOT / "crates.txt").read_text(encoding="utf-8").splitlines()
    return {line.partition(":")[0].split()[0] for line in lines if line and not line.startswith("#")}


def sources_of(top: Path) -> list[Path]:
    """The files below a folder, without what the kit makes in out/."""
    return [path for path in top.rglob("*") if "out" not in path.relative_to(CRATES.parent).parts[:3]]


def words_of_the_tree() -> set[str]:
    """All words of all sources, hyphens within words included; of the crates' sources what is no comment."""
    words: set[str] = set()
    for top in ("crates", "tests", "python", "docs/src", "include", "examples", "rust", "r", ".ci"):
        for path in sources_of(ROOT / top):
            if (
                path != Path(__file__).resolve()
                and path.is_file()
                and (path.suffix in SOURCES or path.name in ("run", "build", "configure"))
            ):
                text = path.read_text(encoding="utf-8", errors="replace")
                words.update(re.findall(r"[^\W\d][\w'′₀-₉-]*", without_comments(text) if top == "crates" else text))
    for path in sources_of(CRATES):
        if path.suffix in (".edit", ".antt", ".rt"):
            words.update((path.stem, path.parent.name))
    words.update(
        re.findall(r"\w+", (ROOT / "walzhik").read_text(encoding="utf-8")) if (ROOT / "walzhik").exists() else ()
    )
    return words


def without_comments(text: str) -> str:
    return re.sub(r"^\s*(?:--|//).*$", "", text, flags=re.MULTILINE)


def comments_of(text: str) -> str:
    return "\n".join(re.findall(r"^\s*(?:--|//) ?(.*)$", text, re.MULTILINE))


def defined(crate: str, name: str) -> bool:
    """Whether a crate's proofs or specs define the name."""
    start = re.compile(rf"^ *(?:(?:abbrev|unfoldable) )?pub (?:record |data )?{re.escape(name)}(?= )", re.MULTILINE)
    return any(start.search(path.read_text(encoding="utf-8")) for path in sources_of(CRATES / crate) if path.suffix == ".antt")


def module_faults(crate: str, files: list[str], crates: set[str]) -> list[str]:
    """The files of a crate that are not there."""
    if crate not in crates:
        return [f"no crate {crate}"]
    there = {path.stem for kind in ("specs", "proofs") for path in (CRATES / crate / kind).glob("*.antt")}
    return [f"{crate}: no file {name}" for name in files if name not in there]


def theorem_rows(text: str, crates: set[str]) -> list[str]:
    """Rows `| name, name | words | crate: File, File |`: the theorems stand in that crate."""
    faults = []
    for names, crate in re.findall(rf"^\| ([a-z][\w, -]*) \|.*\| (\w+): {FILES} \|$", text, re.MULTILINE):
        if crate in crates:
            faults += [f"{crate}: no theorem {name}" for name in names.split(", ") if not defined(crate, name)]
    return faults


def module_lists(text: str, crates: set[str]) -> list[str]:
    """`crate: File, File` anywhere on a page."""
    found = re.findall(rf"(?<![\w:/.-])((?:{FLOORS}|theorem)(?:_[a-z]+)+): ({FILES})(?=[ .;|)\n])", text)
    return [fault for crate, files in found for fault in module_faults(crate, files.split(", "), crates)]


def file_tables(text: str, crates: set[str]) -> list[str]:
    """Tables `| File | ..` after a text that names their crate; `File, File (crate)` has its own."""
    faults = []
    for before, rows in re.findall(r"((?:^(?!\|).*\n)+)^\| File \|.*\n\|[-|]*\n((?:^\|.*\n)+)", text, re.MULTILINE):
        named = re.search(r"crate ([a-z_]+)", before.strip().rpartition("\n\n")[2])
        for cell in re.findall(r"^\| ([^|]*) \|", rows, re.MULTILINE):
            names, own = re.fullmatch(r"([^(]*?)(?: \((\w+)\))?", cell).groups()  # type: ignore[union-attr]
            if own or named:
                faults += module_faults(own or named[1], names.split(", "), crates)  # type: ignore[index]
    return faults


def paths(text: str, crates: set[str], home: str | None = None) -> list[str]:
    """`crate/specs/File`; in a comment of crate `home` also `specs/File`, of its own crate or of one that the same text names."""
    faults = []
    for crate, kind, name in re.findall(
        r"(?<![\w/.-])(?:crates/)?(?:([a-z]+(?:_[a-z]+)*)/)?(specs|proofs|src|must-fail)/([\w/-]+)", text
    ):
        if not crate and home is None or crate == "target" or (ROOT / crate / kind).is_dir() and crate:
            continue
        if crate and crate not in crates:
            faults.append(f"no crate {crate}")
            continue
        near = [crate] if crate else [home, *(set(re.findall(r"[a-z_]+", text)) & crates)]
        if not any(list((CRATES / str(place) / kind).glob(f"{name}*")) for place in near):
            faults.append(f"no {(crate or str(home))}/{kind}/{name}")
    return faults


def item_paths(text: str, crates: set[str], words: set[str], outside: set[str]) -> list[str]:
    """`crate::item`, where `outside` are names that may stand for a crate."""
    faults = []
    for crate, item in re.findall(r"\b([a-z_]+)::((?:\w+::)*\w+)", text):
        if crate in crates and not set(item.split("::")) <= words:
            faults.append(f"no {crate}::{item}")
        elif crate not in crates | outside:
            faults.append(f"no crate {crate}")
    return faults


def floor_words(text: str, crates: set[str], words: set[str]) -> list[str]:
    """Words that begin as a crate's name does are crates, or functions and files of the tree."""
    found = re.findall(rf"(?<![\w:/.-])(?:{FLOORS})_[a-z_]+\b(?!\.)(?:-\w[\w-]*)?", text)
    return [f"nothing is named {name}" for name in found if name not in words | crates | FOREIGN]


def code_words(text: str, crates: set[str], words: set[str]) -> list[str]:
    """Names between backticks: words with a hyphen, an underscore or a capital inside."""
    faults = []
    for quoted in re.findall(r"`([^`\n]+)`", text):
        faults += item_paths(quoted, crates, words, words)
        if (
            re.fullmatch(r"[A-Za-z][\w-]*", quoted)
            and re.search(r"[-_]|[a-z][A-Z]", quoted)
            and not quoted.endswith("-")
        ):
            if quoted not in words | crates | FOREIGN:
                faults.append(f"nothing is named {quoted}")
    for crate in re.findall(r"\bcrates? `?([a-z]+_[a-z_]+)\b", text):
        if crate not in crates:
            faults.append(f"no crate {crate}")
    return faults


def floors(text: str, crates: set[str]) -> list[str]:
    """The table of floors names every crate once, and no other."""
    part = text.partition("## The floors")[2]
    named = [
        name for cell in re.findall(r"^\| [^|]*\| ([a-z_, ]+) \|", part, re.MULTILINE) for name in cell.split(", ")
    ]
    faults = [f"the table of floors lacks {name}" for name in sorted(crates - set(named))]
    faults += [f"the table of floors has {name}, which is no crate" for name in sorted(set(named) - crates)]
    return faults + [
        f"the table of floors has {name} twice" for name in sorted({n for n in named if named.count(n) > 1})
    ]


def page_faults(name: str, text: str, crates: set[str], words: set[str]) -> list[str]:
    found = theorem_rows(text, crates) + module_lists(text, crates) + file_tables(text, crates)
    found += paths(text, crates) + code_words(text, crates, words) + floor_words(text, crates, words)
    return found + (floors(text, crates) if name == "CONTRIBUTING.md" else [])


def comment_faults(crate: str, text: str, crates: set[str], words: set[str]) -> list[str]:
    """The names in the comments of one source."""
    comments = comments_of(text)
    found = item_paths(comments, crates, words, KIT) + floor_words(comments, crates, words)
    return found + [fault for comment in comments.split("\n") for fault in paths(comment, crates, crate)]


def self_test(crates: set[str], words: set[str]) -> int:
    """Each kind of wrong name is found, and a right row is not."""
    wrong = {
        "| column_sums_one | x | theorem_weights: PartitionOfUnity |": "no crate theorem_weights",
        "| column_sums_one | x | theorems_weights: Partition |": "theorems_weights: no file Partition",
        "| column_sums_two | x | theorems_weights: PartitionOfUnity |": "theorems_weights: no theorem column_sums_two",
        "| nodes_rise | x | theorems_nodes: Nodes |": "theorems_nodes: no theorem nodes_rise",
        "| build_space: Machine; walzhik_reply: Machines | x |": "walzhik_reply: no file Machines",
        "In crate spec_spline:\n\n| File | x |\n|---|---|\n| Space, Steps | x |\n": "spec_spline: no file Steps",
        "In crate spec_spline:\n\n| File | x |\n|---|---|\n| Size (base_fraktion) | x |\n": "no crate base_fraktion",
        "see `spec_spec_spline/specs/Cases.antt`": "no crate spec_spec_spline",
        "see spec_spline/specs/Case_s": "no spec_spline/specs/Case_s",
        "`build::bild`": "no build::bild",
        "`cut-recoverd`": "nothing is named cut-recoverd",
        "crate base_exakt": "no crate base_exakt",
        "`floorDiv`": "nothing is named floorDiv",
        "what build_row_s holds": "nothing is named build_row_s",
        "what curve_cells-sum-to-one states": "nothing is named curve_cells-sum-to-one",
    }
    missed = [text for text, fault in wrong.items() if fault not in page_faults("x.md", text, crates, words)]
    comments = {
        "-- `space::row_count` meets its contract": "no crate space",
        "// the laws are in proofs/Stor_ed": "no build/proofs/Stor_ed",
        "-- as spec_splin says": "nothing is named spec_splin",
    }
    missed += [text for text, fault in comments.items() if fault not in comment_faults("build", text, crates, words)]
    right = page_faults("x.md", "| column_sums_one | x | theorems_weights: PartitionOfUnity |", crates, words)
    right += page_faults("x.md", "| nodes-rise | curve_cells-sum_to_one | theorems_nodes: Nodes |", crates, words)
    right += comment_faults(
        "spec_spline", "-- `build::build`, proofs/Cases and theorems_acceptance, specs/Acceptance", crates, words
    )
    if "the table of floors lacks build" not in floors("## The floors\n| a | curve | x |\n", crates):
        missed.append("a crate without a row")
    for text in missed + right:
        print(f"self-test: {text}")
    return 1 if missed or right else 0


def status_of(faults: list[str], summary: str) -> int:
    """The status of a test of pages or sources, once its faults and what it has read are said."""
    for fault in faults:
        print(fault)
    print(f"{summary}, {len(faults)} faults")
    return 1 if faults else 0


def main() -> int:
    crates, words = crate_names(), words_of_the_tree()
    if sys.argv[1:] == ["--self-test"]:
        return self_test(crates, words)
    sources = sorted(path for path in sources_of(CRATES) if path.suffix in (".antt", ".rt"))
    faults = []
    for path in [*pages(), *sources]:
        text = path.read_text(encoding="utf-8")
        found = (comment_faults(path.relative_to(CRATES).parts[0], text, crates, words) if path.is_relative_to(CRATES)
                 else page_faults(path.name, text, crates, words))
        faults += [f"{path.relative_to(ROOT)}: {fault}" for fault in found]
    return status_of(faults, f"names: {len(pages())} pages, {len(sources)} sources")


if __name__ == "__main__":
    sys.exit(main())
