"""Checks that building holds no long array, on the stack or anywhere.

usage: arrays.py [CRATE::FUNCTION] [--limit N] [--root FOLDER]

The exported call is followed down: its own crate item by item, each other crate that these items name whole, with all
crates that it reaches by crates.txt. Every array type, array expression, array literal and byte string there is counted by
its numbers: an array of arrays or of structs has as many as all its elements together, the arrays of one struct count one by
one. A static, a name that a crate gives twice, or an array whose numbers can't be counted is a failure, and so is one of
more than N numbers. Contracts are not code and are left out.
"""

import argparse
import re
import sys
from collections.abc import Iterable, Iterator
from math import prod
from pathlib import Path
from typing import NamedTuple

CALL = "walzhik::walzhik_build"
LIMIT = 144
NUMBERS = {"u8", "u16", "u32", "u64", "usize", "i8", "i16", "i32", "i64", "isize", "f32", "f64", "bool"}
BYTES = r"b\"(?:[^\"\\]|\\.)*\""
LEFT_OUT = re.compile(rf"(?P<bytes>{BYTES})|(?P<byte>\bb'(?:[^'\\]|\\x[0-9a-fA-F]{{2}}|\\.)')|//[^\n]*", re.S)
BYTE = re.compile(r"\\x[0-9a-fA-F]{2}|\\[nrt0\\'\"]|[^\\]", re.S)
TOKEN = re.compile(
    BYTES + r"|'[A-Za-z_]\w*|[A-Za-z_]\w*(?:::[A-Za-z_]\w*)*|[0-9][0-9_]*(?:[iu](?:8|16|32|64|size))?|[^\s\w]", re.S
)
KINDS = {"fn", "struct", "enum", "const", "type", "impl", "mod", "use", "static"}
CLAUSES = {"requires", "ensures"}
KEYWORDS = KINDS | {
    "as",
    "break",
    "else",
    "extern",
    "for",
    "if",
    "in",
    "let",
    "loop",
    "match",
    "pub",
    "return",
    "while",
}
CLOSING = {"[": "]", "(": ")", "{": "}"}


class Uncounted(Exception):
    """An array whose numbers can't be told from the text."""


class Item(NamedTuple):
    """A function, type, constant or import of a crate: where it stands, its name and its tokens."""

    crate: str
    path: Path
    kind: str
    name: str
    tokens: list[str]


def dependencies(root: Path) -> dict[str, list[str]]:
    """What each crate names, by crates.txt."""
    lines = (line.partition("#")[0] for line in (root / "crates.txt").read_text().splitlines())
    named = (line.partition(":") for line in lines if line.strip())
    return {name.split()[0]: names.split() for name, _, names in named}


def reached(listed: dict[str, list[str]], crates: Iterable[str]) -> list[str]:
    """The crates and all that they depend on."""
    found: list[str] = []
    waiting = list(crates)
    while waiting:
        name = waiting.pop()
        if name in listed and name not in found:
            found.append(name)
            waiting += listed[name]
    return sorted(found)


def tokens_of(text: str) -> list[str]:
    """The code's tokens, without contracts; a byte is a number, a byte string, a label and a path are one token each.

    Examples
    --------
    >>> tokens_of("break 'found [b'a'; build_cells::ROW_CELLS]; // a row")
    ['break', "'found", '[', '0', ';', 'build_cells::ROW_CELLS', ']', ';']
    >>> tokens_of("fn f() requires low { a ≡ [] } ensures { record { num = [x; 400] } ≡ b' } { g() }")
    ['fn', 'f', '(', ')', '{', 'g', '(', ')', '}']
    """
    code = LEFT_OUT.sub(lambda found: found["bytes"] or ("0" if found["byte"] else " "), text)
    return without_contracts(TOKEN.findall(code))


def without_contracts(tokens: list[str]) -> list[str]:
    """The tokens without clauses: `requires` or `ensures`, perhaps a name, and what stands in braces."""
    left: list[str] = []
    place = 0
    while place < len(tokens):
        opened = next((at for at in (place + 1, place + 2) if tokens[at : at + 1] == ["{"]), None)
        if tokens[place] in CLAUSES and opened is not None:
            place = matching(tokens, opened) + 1
        else:
            left.append(tokens[place])
            place += 1
    return left


def matching(tokens: list[str], start: int) -> int:
    """The index of the bracket that closes the one at start."""
    close, depth = CLOSING[tokens[start]], 0
    for place in range(start, len(tokens)):
        depth += (tokens[place] == tokens[start]) - (tokens[place] == close)
        if depth == 0:
            return place
    raise Uncounted("a bracket that nothing closes")


def split_at(tokens: list[str], mark: str) -> list[list[str]]:
    """The parts between the marks that lie in no bracket."""
    parts: list[list[str]] = [[]]
    depth = 0
    for token in tokens:
        depth += (token in "[({") - (token in "])}")
        if token == mark and depth == 0:
            parts.append([])
        else:
            parts[-1].append(token)
    return parts


def item_end(tokens: list[str], start: int) -> int:
    """Past the last token of the item at start: its semicolon, or the bracket of its body; an import's braces are no body."""
    place, body = start, True
    while place < len(tokens):
        token = tokens[place]
        if token in CLOSING:
            place = matching(tokens, place)
            if token == "{" and body:
                break
        elif token == ";":
            break
        body = body and token != "use"
        place += 1
    return place + 1


def attributes_end(tokens: list[str], start: int) -> int:
    """Past the attributes of a file or of the item at start."""
    while tokens[start : start + 1] == ["#"]:
        start = matching(tokens, start + 1 + (tokens[start + 1] == "!")) + 1
    return start


def imported(tokens: list[str]) -> list[str]:
    """The paths of an import.

    Examples
    --------
    >>> imported(tokens_of("use base_outcome::{Found, codes};"))
    ['base_outcome::Found', 'base_outcome::codes']
    >>> imported(tokens_of("pub use base_outcome::limits;"))
    ['base_outcome::limits']
    """
    path, *rest = tokens[tokens.index("use") + 1 :]
    if rest == [";"]:
        return [path]
    names = split_at(rest[3:-2], ",")
    if rest[:3] != [":", ":", "{"] or rest[-2:] != ["}", ";"] or not all(len(name) == 1 for name in names if name):
        raise Uncounted(f"an import of all of a module, or under another name: {' '.join(tokens)}")
    return [f"{path}::{name[0]}" for name in names if name]


def items_of(crate: str, path: Path) -> Iterator[Item]:
    """The items of a file, without what only contracts use."""
    tokens = tokens_of(path.read_text())
    start = attributes_end(tokens, 0)
    while start < len(tokens):
        end = item_end(tokens, start)
        item = tokens[start:end]
        kind = next((place for place, token in enumerate(item) if token in KINDS), None)
        if kind is not None and item[0] != "ghost":
            yield Item(crate, path, item[kind], item[kind + 1], item)
        start = attributes_end(tokens, end)


def bytes_in(token: str) -> int:
    """The bytes of a byte string.

    Examples
    --------
    >>> bytes_in('b"no=10\\\\n"')
    6
    """
    inside = token[2:-1]
    single = BYTE.findall(inside)
    if "".join(single) != inside:
        raise Uncounted(f"byte string {token[:20]}")
    return len(single)


class Source:
    """The code of some crates: their items, and the constants and types that they name, by crate."""

    def __init__(self, root: Path, crates: Iterable[str], listed: dict[str, list[str]]) -> None:
        self.listed = listed
        self.items = [
            item
            for crate in crates
            for path in sorted((root / "crates" / crate / "src").glob("**/*.rt"))
            for item in items_of(crate, path)
        ]
        self.named: dict[tuple[str, str], Item] = {}
        self.imports: dict[tuple[Path, str], tuple[str, str]] = {}
        for item in self.items:
            if item.kind in ("const", "struct", "enum", "type", "static"):
                if (item.crate, item.name) in self.named:
                    raise Uncounted(f"crate {item.crate} gives the name {item.name} twice")
                self.named[item.crate, item.name] = item
            if item.kind == "use":
                for name in imported(item.tokens):
                    self.imports[item.path, name.rpartition("::")[2]] = self.owner(item, name)

    def owner(self, item: Item, path: str) -> tuple[str, str]:
        """The crate and the name that a path in an item stands for."""
        first, _, rest = path.partition("::")
        name = path.rpartition("::")[2]
        if not rest and (item.path, name) in self.imports:
            return self.imports[item.path, name]
        if rest and first not in self.listed and (item.path, first) in self.imports:
            return self.imports[item.path, first][0], name
        return (first, name) if rest and first in self.listed else (item.crate, name)

    def find(self, item: Item, path: str, *kinds: str) -> Item | None:
        """The item of one of the kinds that a path in an item names."""
        found = self.named.get(self.owner(item, path))
        return found if found is not None and found.kind in kinds else None

    def number(self, item: Item, word: str) -> int:
        """The number that a literal or a constant stands for."""
        if word[0].isdigit():
            return int(re.sub("[iu].*|_", "", word))
        constant = self.find(item, word, "const")
        if constant is not None:
            value = constant.tokens[constant.tokens.index("=") + 1 : -1]
            if len(value) == 1:
                return self.number(constant, value[0])
        raise Uncounted(f"length {word} in {item.path}")

    def length(self, item: Item, tokens: list[str]) -> int:
        """The number that a length or a product of lengths stands for."""
        factors = split_at(tokens, "*")
        if not all(len(factor) == 1 for factor in factors):
            raise Uncounted(f"length {' '.join(tokens)} in {item.path}")
        return prod(self.number(item, factor[0]) for factor in factors)

    def type_numbers(self, item: Item, tokens: list[str]) -> int:
        """How many numbers a value of the type holds; a reference holds one."""
        if not tokens or tokens[0] == "&" or tokens[0] in NUMBERS:
            return 1
        if tokens[0] == "[":
            element, length = split_at(tokens[1 : matching(tokens, 0)], ";")
            return self.type_numbers(item, element) * self.length(item, length)
        found = self.find(item, tokens[0], "struct", "enum", "type")
        if found is None:
            raise Uncounted(f"type {' '.join(tokens)} in {item.path}")
        if found.kind == "type":
            return self.type_numbers(found, found.tokens[found.tokens.index("=") + 1 : -1])
        start = next(place for place, token in enumerate(found.tokens) if token in ("{", "(") and place > 1)
        parts = [part for part in split_at(found.tokens[start + 1 : matching(found.tokens, start)], ",") if part]
        if found.kind == "enum":
            return 1 + sum(self.variant_numbers(found, part) for part in parts)
        return sum(self.field_numbers(found, part) for part in parts)

    def field_numbers(self, item: Item, tokens: list[str]) -> int:
        """Of `pub name: T`, or `T` in a tuple struct."""
        return self.type_numbers(
            item, tokens[tokens.index(":") + 1 :] if ":" in tokens else tokens[tokens[0] == "pub" :]
        )

    def variant_numbers(self, item: Item, tokens: list[str]) -> int:
        """Of `Name`, or `Name(T, ..)`."""
        return sum(self.type_numbers(item, part) for part in split_at(tokens[2:-1], ",") if part)

    def value_numbers(self, item: Item, tokens: list[str]) -> int:
        """How many numbers an element of an array expression holds."""
        if tokens[0] == "[":
            return self.array_numbers(item, tokens[1 : matching(tokens, 0)])
        if tokens[0].startswith('b"'):
            return bytes_in(tokens[0])
        if len(tokens) > 1 and tokens[1] == "{" and self.find(item, tokens[0], "struct") is not None:
            return self.type_numbers(item, tokens[:1])
        words = [token for token in tokens if token[0].isalpha() or token[0] == "_"]
        if all(word in ("true", "false", "as", *NUMBERS) or self.is_number(item, word) for word in words):
            return 1
        raise Uncounted(f"element {' '.join(tokens)} in {item.path}")

    def is_number(self, item: Item, word: str) -> bool:
        """A constant of a number's type."""
        constant = self.find(item, word, "const")
        return constant is not None and constant.tokens[constant.tokens.index(":") + 1] in NUMBERS

    def array_numbers(self, item: Item, inside: list[str]) -> int:
        """The numbers of `T; n`, `v; n` or `a, b, ..`."""
        halves = split_at(inside, ";")
        if len(halves) == 2:
            element, length = halves
            try:
                return self.type_numbers(item, element) * self.length(item, length)
            except Uncounted:
                return self.value_numbers(item, element) * self.length(item, length)
        return sum(self.value_numbers(item, part) for part in split_at(inside, ",") if part)

    def arrays(self, items: Iterable[Item]) -> Iterator[tuple[Path, str, int]]:
        """Each array of the items: its path, its text and its numbers."""
        for item in items:
            if "static" in item.tokens:
                raise Uncounted(f"a static in {item.path}")
            for place, token in enumerate(item.tokens):
                if token.startswith('b"'):
                    yield item.path, token, bytes_in(token)
                if token == "[" and is_array(item.tokens, place):
                    inside = item.tokens[place + 1 : matching(item.tokens, place)]
                    yield item.path, f"[{' '.join(inside)}]", self.array_numbers(item, inside)


def is_array(tokens: list[str], place: int) -> bool:
    """Neither an index, a part of a slice, a slice's type nor an attribute."""
    before = tokens[place - 1] if place else ""
    if before.startswith("'") and tokens[place - 2] == "&":
        before = "&"
    value = before in (")", "]", "#") or re.match(r"\w", before) is not None
    if value and before not in KEYWORDS | {"mut"}:
        return False
    inside = tokens[place + 1 : matching(tokens, place)]
    return len(split_at(inside, ";")) == 2 or before not in ("&", "mut") or "," in inside


def followed(root: Path, call: str, listed: dict[str, list[str]]) -> tuple[list[Item], list[str]]:
    """The items of its own crate that an exported call reaches by their names, and the other crates that these name."""
    crate, _, function = call.partition("::")
    own = Source(root, [crate], listed)
    found: list[Item] = []
    waiting = {function}
    tried: set[str] = set()
    others: set[str] = set()
    while waiting:
        name = waiting.pop()
        tried.add(name)
        for item in own.items:
            if item.name == name and item not in found:
                found.append(item)
                owners = [own.owner(item, token)[0] for token in item.tokens if re.match(r"[A-Za-z_]", token)]
                others |= {owner for owner in owners if owner != crate}
                waiting |= {part for token in item.tokens for part in token.split("::")} - tried
    if not any(item.kind == "fn" and item.name == function for item in found):
        raise Uncounted(f"no function {call}")
    return found, reached(listed, others)


def main() -> int:
    parser = argparse.ArgumentParser(description="check how long the arrays of a call are")
    parser.add_argument("call", nargs="?", default=CALL)
    parser.add_argument("--limit", type=int, default=LIMIT)
    parser.add_argument("--root", type=Path, default=Path(__file__).resolve().parent.parent)
    chosen = parser.parse_args()
    try:
        listed = dependencies(chosen.root)
        own, crates = followed(chosen.root, chosen.call, listed)
        source = Source(chosen.root, [*crates, chosen.call.partition("::")[0]], listed)
        whole = [item for item in source.items if item.crate in crates]
        found = list(source.arrays([*own, *whole]))
    except Uncounted as why:
        print(f"arrays: can't be counted: {why}")
        return 1
    for path, text, numbers in found:
        if numbers > chosen.limit:
            print(f"arrays: {numbers} numbers in {path.relative_to(chosen.root)}: {text[:60]}")
    path, text, most = max(found, key=lambda array: array[2])
    print(f"arrays: {len(found)} in {', '.join(item.name for item in own)} and all of {' '.join(crates)}")
    print(
        f"arrays: the largest has {most} numbers, {text[:60]} in {path.relative_to(chosen.root)}; at most {chosen.limit}"
    )
    return 1 if most > chosen.limit else 0


if __name__ == "__main__":
    sys.exit(main())
