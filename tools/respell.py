#!/usr/bin/env python3
"""Respells the repository's own definitions and lemmas, in place, once, after the toolchain's port.py.

usage: tools/respell.py        at the top of the repository, on files that port.py has just turned

Three rules, over specs/, proofs/ and the clauses and comments of src/:
  floorDiv -> floor_div        a name in lower camel case is in snake case
  error-parts -> error_parts   a dash between plain words is an underscore; it stays where it joins the names of two definitions, as in gcd-zero
  row_count -> row_count_lem   a lemma that would then have its function's name gets _lem
A name stays as it is in all files where its new spelling would meet another name in a file that has it. Functions of src/, exported names,
strings, inputs and outputs are not touched. The rows that were applied are written to docs/respelled.tsv.
"""

import collections
import os
import re
import subprocess
import sys

TOKEN = re.compile(r'[^\s(){}.;,@"«»]+')
CAMEL = re.compile(r"(^|[-_◌])[a-z][a-z0-9]*[A-Z]")
DECLARED = re.compile(r"( *)(?:(?:abbrev|opaque|unfoldable|pub|instance)\s+)*(?:(record|data)\s+)?([^\s:(){},.=|]+)(?:\s+[^=]*?)?\s*:(?:\s|$)")
QUIET = re.compile(r'"(?:[^"\\\n]|\\.)*"')
NOT_A_NAME = {"use", "mod", "let", "λ", "where", "--", "in", "module", "open"}
SMALL = set("a an the is are of in at by to no not and or from with for as on up out it its be has have than then else if one two more all any each".split())
# Lemmas that port.py spelled like the function that they are about.
LEMMAS = ["values_length", "row_count", "part_end", "digits_value", "of_cut", "goes_on", "value_cell", "of_space"]


def files(root, suffix, below="crates"):
    for folder, dirs, names in os.walk(os.path.join(root, below)):
        dirs[:] = sorted(d for d in dirs if d not in ("out", ".git"))
        for name in sorted(names):
            if name.endswith(suffix):
                yield os.path.join(folder, name)


def snake(name):
    out = []
    for part in re.split(r"([-◌])", name):
        if part and (part[0].islower() or part[0] == "_"):
            part = re.sub(r"(?<=[a-z0-9])[A-Z]+", lambda m: "_" + m[0].lower(), part)
        out.append(part)
    return "".join(out)


def code(text):
    text = re.sub(r"(?m)(^|(?<=\s))--.*$", "", text)
    return QUIET.sub('""', text)


def read(path):
    with open(path, encoding="utf-8", newline="") as it:
        return it.read()


def of_a_function(path):
    parts = path.split("/proofs/")
    return len(parts) > 1 and "/" in parts[-1]


def kit():
    """The folder of the toolchain."""
    said = subprocess.run(["rt", "doc"], capture_output=True, text=True, check=True).stdout
    return os.environ.get("RATTLE_KIT") or os.path.dirname(said.strip())


def library(folder):
    """The names of the library's definitions, as far as a declaration shows them."""
    out = set()
    for path in files(folder, ".antt", "rattle"):
        if "/specs/" in path:
            for line in read(path).split("\n"):
                m = DECLARED.match(line)
                if m and not m[1]:
                    out.add(m[3])
    return out


def main(root="."):
    antt, rt = list(files(root, ".antt")), list(files(root, ".rt"))
    texts = {p: read(p) for p in antt + rt}
    clean = {p: code(texts[p]) for p in antt}
    seen, bare = collections.defaultdict(set), collections.defaultdict(set)
    declared, definitions, generated = set(), set(), set()
    for p in antt:
        for m in TOKEN.finditer(clean[p]):
            seen[m[0]].add(p)
            if m.start() == 0 or clean[p][m.start() - 1] != ".":
                bare[m[0]].add(p)
        for line in clean[p].split("\n"):
            m = DECLARED.match(line)
            if m and m[3] not in NOT_A_NAME and not (of_a_function(p) and not m[1]):
                declared.add(m[3])
                if not m[1] and "/specs/" in p:
                    definitions.add(m[3])
        if of_a_function(p):
            generated |= {m[1] for m in re.finditer(r"tie\.\w*[Nn]eeds?-([^\s(){}.;,]+)", clean[p])}
    # What a file imports from a library keeps its spelling everywhere.
    crates = {os.path.basename(f) for f in (os.path.join(root, "crates", c) for c in os.listdir(os.path.join(root, "crates")))}
    foreign = set()
    for p in antt + rt:
        for m in re.finditer(r"\buse ([^\s;{]+?)\.?\{([^}]*)\}", texts[p]):
            steps = m[1].split(".")
            if not (steps[0] == "Rattle" and len(steps) > 1 and steps[1] in crates):
                foreign |= {w for w in re.split(r"[\s,]+", m[2]) if w}
    names = {snake(n) for n in definitions} | library(kit())

    def dashed(name):
        parts = name.split("-")
        if "" in parts:
            return name
        out = parts[0]
        for left, right in zip(parts, parts[1:]):
            joins = all(p not in SMALL and (snake(p) in names or not re.fullmatch(r"[a-z_0-9']+", snake(p))) for p in (left, right))
            out += ("-" if joins else "_") + right
        return out

    rows = {n: n + "_lem" for n in LEMMAS if n in seen}
    for name in sorted(seen):
        camel = CAMEL.search(name) and not name[0].isupper()
        dash = "-" in name.strip("-") and name in declared and name not in generated and name not in foreign and not name.startswith(("invariant-", "decreases-"))
        if camel or dash:
            new = snake(dashed(name) if dash else name)
            if new != name:
                rows[name] = new
    # Where the new spelling meets another name in a file, the dash stays; where that does not help, the name stays.
    for name in list(rows):
        new = rows[name]
        if name in LEMMAS:
            continue
        meets = (bare[new] & seen[name]) or any(o != name and rows[o] == new for o in rows)
        if meets and new not in LEMMAS:
            only = snake(name)
            if only != name and not (bare[only] & seen[name]):
                rows[name] = only
            else:
                print(f"stays: {name} (would meet {new} in {sorted(bare[new] & seen[name])[:2]})")
                del rows[name]

    def turn(text, path):
        def one(m):
            word = m[0]
            if word not in rows:
                return word
            if word in LEMMAS:
                after_dot = m.start() > 0 and text[m.start() - 1] == "."
                labels = re.match(r"\s*=[\s]", text[m.end() : m.end() + 3]) and re.search(r"[{;]\s*$|\n    +$", text[: m.start()]) and "/Stepped" in path
                if after_dot or labels:
                    return word
            return rows[word]

        return TOKEN.sub(one, text)

    def lemma_is_here(path):
        return {n for n in LEMMAS if n in rows and path in bare[n]}

    for p in antt:
        here = lemma_is_here(p)
        kept = {n: rows.pop(n) for n in list(rows) if n in LEMMAS and n not in here}
        new = turn(texts[p], p)
        rows.update(kept)
        if new != texts[p]:
            with open(p, "w", encoding="utf-8", newline="") as it:
                it.write(new)
    words = {n: v for n, v in rows.items() if n not in LEMMAS}
    for p in rt:
        def line_of(line):
            m = re.match(r"(.*?)(b?\"(?:[^\"\\]|\\.)*\".*)?$", line, re.S)
            head = TOKEN.sub(lambda w: words.get(w[0], w[0]) if CAMEL.search(w[0]) or "-" in w[0] else w[0], m[1])
            head = re.sub(r"`([^`\s]+)`", lambda w: "`" + words.get(w[1], w[1]) + "`", head)
            return head + (m[2] or "")

        new = "\n".join(line_of(line) for line in texts[p].split("\n"))
        if new != texts[p]:
            with open(p, "w", encoding="utf-8", newline="") as it:
                it.write(new)
    with open(os.path.join(root, "docs", "respelled.tsv"), "w", encoding="utf-8") as it:
        for name in sorted(rows):
            it.write(f"{name}\t{rows[name]}\n")
    print(f"{len(rows)} names respelled")


if __name__ == "__main__":
    sys.exit(main())
