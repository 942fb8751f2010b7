"""Holds every place that states the version against the one in include/walzhik.h: the changelog's newest entry, the Rust crate, the R
package, the Python package, the Debian packages and what the command prints, which names the commit and the kit too.

usage: version.py
"""

import re
import subprocess
import sys
from pathlib import Path

ROOT = Path(__file__).resolve().parent.parent
PYTHON = "/usr/bin/python3"


def header():
    text = (ROOT / "include" / "walzhik.h").read_text(encoding="utf-8")
    return ".".join(re.search(rf"^#define WALZHIK_VERSION_{part} (\d+)$", text, re.MULTILINE)[1] for part in ("MAJOR", "MINOR", "PATCH"))


def written(path, pattern):
    found = re.search(pattern, (ROOT / path).read_text(encoding="utf-8"), re.MULTILINE)
    return found[1] if found else "none"


def printed(*command):
    said = subprocess.run(command, cwd=ROOT, capture_output=True, text=True, check=False)
    found = re.search(r"\d+\.\d+\.\d+", said.stdout)
    return found[0] if found else f"none (status {said.returncode}: {said.stderr.strip()})"


def names_commit_and_kit():
    """Whether ./walzhik --version names this commit, and a kit."""
    said = subprocess.run(["./walzhik", "--version"], cwd=ROOT, capture_output=True, text=True, check=False).stdout
    head = subprocess.run(["git", "rev-parse", "HEAD"], cwd=ROOT, capture_output=True, text=True, check=False).stdout.strip()
    kit = subprocess.run(["rt", "version"], cwd=ROOT, capture_output=True, text=True, check=False).stdout.strip()
    return bool(head and kit) and f", commit {head}" in said and said.endswith(f", kit {kit}\n")


def text_of_header():
    """What a C program has for WALZHIK_VERSION: the compiler's own words for the macro, put together."""
    said = subprocess.run(["cc", "-E", "-P", "-I", str(ROOT / "include"), "-"], input='#include "walzhik.h"\nWALZHIK_VERSION\n',
                          capture_output=True, text=True, check=False)
    return "".join(re.findall(r'"([^"]*)"', said.stdout.strip().splitlines()[-1]))


def main():
    version = header()
    stated = {
        "CHANGELOG.md": written("CHANGELOG.md", r"^## (\S+)$"),
        "rust/Cargo.toml": written("rust/Cargo.toml", r'^version = "([^"]+)"$'),
        "WALZHIK_VERSION": text_of_header(),
        "r/DESCRIPTION": written("r/DESCRIPTION", r"^Version: (\S+)$"),
        "./walzhik --version": printed("./walzhik", "--version"),
        "python/setup.py": printed(PYTHON, "python/setup.py", "--version"),
        "debian/changelog": written("debian/changelog", r"^walzhik \((\S+)\)"),
        "the command's line": version if names_commit_and_kit() else "no commit or kit",
    }
    wrong = {place: other for place, other in stated.items() if other != version}
    for place, other in wrong.items():
        print(f"{place}: {other}, but include/walzhik.h has {version}")
    print(f"version: {version}, {len(stated)} places, {len(wrong)} faults")
    return 1 if wrong else 0


if __name__ == "__main__":
    sys.exit(main())
