"""Prints the manual page of the command, made from what --help says of it and of each of its words.

usage: manual.py VERSION
"""

from __future__ import annotations

import sys

import click

from walzhik._place import called
from walzhik.cli import GROUPS, as_called, cli

WIDTH = 78


def escaped(line: str) -> str:
    """A line as roff takes it: its own letters alone."""
    plain = line.replace("\\", "\\e").replace("-", "\\-").replace("'", "\\(aq").replace("`", "\\(ga")
    return f"\\&{plain}" if plain.startswith(".") else plain


def shown(command: click.Command, parent: click.Context | None, name: str) -> str:
    """A help text as it stands on the screen."""
    with click.Context(command, parent=parent, info_name=name, terminal_width=WIDTH) as context:
        lines = command.get_help(context).splitlines()
    return "\n".join([".nf", *map(escaped, lines), ".fi"])


def main(version: str) -> None:
    cli.help = as_called(cli.help or "")
    parts = [
        f'.TH WALZHIK 1 "" "walzhik {version}" "User Commands"',
        ".SH NAME",
        "walzhik \\- growth curves of tree rings, and ring indices by them",
        ".SH SYNOPSIS",
        ".B walzhik",
        "[\\-\\-version] [\\-\\-help] COMMAND [ARGS]...",
        ".SH DESCRIPTION",
        shown(cli, None, called()),
    ]
    top = click.Context(cli, info_name=called())
    for name in (name for group in GROUPS.values() for name in group):
        command = cli.get_command(top, name)  # type: ignore[attr-defined]
        parts += [f'.SH "WALZHIK {name.upper()}"', shown(command, top, name)]
    parts += [".SH SEE ALSO", "The manual, /usr/share/doc/walzhik/docs/MANUAL.md;", ".BR walzhik\\-sheet (1)"]
    print("\n".join(parts))


if __name__ == "__main__":
    main(sys.argv[1])
