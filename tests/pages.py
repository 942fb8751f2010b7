"""Holds the pages against the tree: links lead somewhere, named files are there, and shown commands run and print what is shown.

usage: pages.py [--self-test] [--no-commands]

Links and files: every *.md that is tracked. Commands: the blocks marked `console` of README.md and docs/LIBRARY.md, in which a line that
begins with `$ ` is typed and what follows is printed, `...` for any lines; they are run one after another, a page's in one folder that has
the tree's files and is thrown away. Needs what .ci/run has built and installed. --self-test shows that each kind of fault is found.
"""

import os
import re
import subprocess
import sys
import tempfile
from pathlib import Path

from names import status_of

ROOT = Path(__file__).resolve().parent.parent
SHOWN = ("README.md", "docs/LIBRARY.md")
# Folders whose files a page may name; what is made (target/) is not looked for.
TOPS = ("crates", "docs", "examples", "include", "python", "r", "rust", "tests", ".ci")
SECONDS = 600


def tracked_pages():
    said = subprocess.run(["git", "ls-files", "-z", "*.md"], cwd=ROOT, capture_output=True, check=True)
    return [ROOT / name for name in said.stdout.decode().split("\0") if name]


def without_code(text):
    return re.sub(r"^```.*?^```", "", text, flags=re.MULTILINE | re.DOTALL)


def anchors(path):
    """The anchors of a page's headings, as forges make them."""
    headings = re.findall(r"^#+ (.*)$", without_code(path.read_text(encoding="utf-8")), re.MULTILINE)
    return {re.sub(r"[^\w\- ]", "", heading.lower()).replace(" ", "-") for heading in headings}


def link_faults(page, text):
    faults = []
    for link in re.findall(r"\]\(([^)\s]+)\)", without_code(text)):
        path, _, anchor = link.partition("#")
        if re.match(r"[a-z]+:", link):
            continue
        target = (page.parent / path).resolve() if path else page
        if not target.exists():
            faults.append(f"a link that leads nowhere: {link}")
        elif anchor and anchor not in anchors(target):
            faults.append(f"a link to a heading that is not there: {link}")
    return faults


def file_faults(text):
    """Paths from the root between backticks or in commands."""
    faults = []
    for path in re.findall(rf"(?<![\w/.-])((?:{'|'.join(map(re.escape, TOPS))})/[\w./-]*\w)", text):
        if re.search(r"NAME|LABEL|NN", path):  # stands for a name
            continue
        if not (ROOT / path).exists() and not list(ROOT.glob(f"{path}.*")):
            faults.append(f"no file {path}")
    return faults


def blocks(text):
    """The commands of a page with what they print: (command, lines)."""
    commands = []
    for block in re.findall(r"^```console\n(.*?)^```", text, re.MULTILINE | re.DOTALL):
        for line in block.splitlines():
            if line.startswith("$ "):
                commands.append((line[2:], []))
            elif line.startswith("> ") and commands and not commands[-1][1]:
                commands[-1] = (f"{commands[-1][0]}\n{line[2:]}", [])
            elif commands:
                commands[-1][1].append(line)
    return commands


def matches(shown, printed):
    """Whether the printed lines are those shown, `...` standing for any."""
    if not shown:
        return not printed
    if shown[0] == "...":
        return any(matches(shown[1:], printed[at:]) for at in range(len(printed) + 1))
    return bool(printed) and shown[0] == printed[0].rstrip() and matches(shown[1:], printed[1:])


def run_commands(page, commands):
    faults = []
    with tempfile.TemporaryDirectory() as folder:
        for entry in ROOT.iterdir():
            if entry.name not in (".git",):
                os.symlink(entry, Path(folder) / entry.name)
        (Path(folder) / ".R").mkdir()
        environment = {**os.environ, "R_LIBS": f"{folder}/.R", "MPLBACKEND": "Agg"}
        for command, shown in commands:
            here = ROOT if command.startswith(".ci/") else folder
            said = subprocess.run(["bash", "-c", command], cwd=here, env=environment, stdin=subprocess.DEVNULL,
                                  stdout=subprocess.PIPE, stderr=subprocess.STDOUT, timeout=SECONDS, check=False)
            printed = said.stdout.decode("utf-8", "replace").splitlines()
            if not matches(shown, printed):
                faults.append(f"{page}: $ {command}\nprinted, with status {said.returncode}:\n" + "\n".join(printed))
    return faults


def page_faults(page):
    text = page.read_text(encoding="utf-8")
    return [f"{page.relative_to(ROOT)}: {fault}" for fault in link_faults(page, text) + file_faults(text)]


def self_test():
    """Each kind of fault is found, and what is right is not called a fault."""
    page = ROOT / "README.md"
    right = "[x](docs/THEOREMS.md) [y](docs/THEOREMS.md#theorems) tests/pages.py"
    tries = (
        ("a missing file", bool(link_faults(page, "[x](docs/NONE.md)"))),
        ("a missing heading", bool(link_faults(page, "[x](docs/THEOREMS.md#none)"))),
        ("a missing named file", bool(file_faults("see tests/none.py"))),
        ("a right page", not link_faults(page, right) and not file_faults(right)),
        ("another output", bool(run_commands("x", blocks("```console\n$ echo a\nb\n```\n")))),
        ("more output", bool(run_commands("x", blocks("```console\n$ printf 'a\\nb\\n'\na\n```\n")))),
        ("the same output", not run_commands("x", blocks("```console\n$ printf 'a\\nb\\nc\\n'\na\n...\nc\n```\n"))),
    )
    for name, well in tries:
        if not well:
            print(f"self-test: {name}")
    return 0 if all(well for _, well in tries) else 1


def main():
    if "--self-test" in sys.argv[1:]:
        return self_test()
    faults = [fault for page in tracked_pages() for fault in page_faults(page)]
    shown = 0
    for name in SHOWN if "--no-commands" not in sys.argv[1:] else ():
        page = ROOT / name
        commands = blocks(page.read_text(encoding="utf-8")) if page.exists() else []
        shown += len(commands)
        if not commands:
            faults.append(f"{name}: no command is shown")
        faults += run_commands(name, commands)
    return status_of(faults, f"pages: {len(tracked_pages())} pages, {shown} commands")


if __name__ == "__main__":
    sys.exit(main())
