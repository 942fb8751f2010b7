"""The command: every module of `walzhik.commands` is a sub-command of its name. A module is imported only when its
command is asked for, so that a command starts fast.
"""

from __future__ import annotations

import importlib
import pkgutil
import signal
import sys
import traceback
from collections import Counter
from typing import IO, Any

import click

from . import commands
from ._loading import loading
from ._place import CHECKED_OUT, INSTALLED, called, checkout
from .threads import keep_to_one
from .words.quoting import escape_names

DONE, UNUSABLE = 0, 2
INTERRUPTED = 130
# The commands by the day's work, each with its line of the help, so that the help loads none of them.
GROUPS = {
    "From widths to indices": {
        "fit": "Fit a curve to measured widths, and write its sheet.",
        "indices": "Divide each measured ring by a curve.",
        "plot": "Draw a curve, with the widths behind it and the ring indices below.",
        "view": "Show a curve on a page in this machine's browser, to be changed by hand.",
    },
    "Files, and what is wrong with them": {
        "explain": "Say in words what the engine makes of a sheet, or what a file of widths holds.",
        "clean": "Bring Tucson files into the strict form that the proved reader takes.",
        "convert": "Bring widths into another form: Tucson, Heidelberg or a table.",
    },
    "Numbers of a curve": {
        "curve": "Print a sheet's curves as CSV.",
        "reach": "Print the first position where a sheet's curves reach a width.",
        "coefficients": "Work out a sheet's coefficients from the ordinates of its stretches.",
    },
    "Many series at once": {"bank": "Fit and divide the series of a whole data bank, on all cores."},
    "This installation": {"proof": "Print what was proved of what is installed, and compare the files with it."},
}


class Missing(click.ClickException):
    """The engine is not built, or a Debian package is missing."""

    exit_code = UNUSABLE

    def show(self, file: IO[Any] | None = None) -> None:
        """Print the message as it is, on standard error."""
        click.echo(self.message, file=file, err=True)


class Commands(click.MultiCommand):
    """The sub-commands, by the names of their modules."""

    def format_commands(self, ctx: click.Context, formatter: click.HelpFormatter) -> None:
        """The commands in their groups."""
        for heading, group in GROUPS.items():
            with formatter.section(heading):
                formatter.write_dl(list(group.items()))

    def list_commands(self, ctx: click.Context) -> list[str]:
        return sorted(
            module.name for module in pkgutil.iter_modules(commands.__path__) if not module.name.startswith("_")
        )

    def get_command(self, ctx: click.Context, cmd_name: str) -> click.Command | None:
        if cmd_name not in self.list_commands(ctx):
            return None
        try:
            with loading():
                command: click.Command = importlib.import_module(f"{commands.__name__}.{cmd_name}").command
        except ImportError as error:
            raise Missing(str(error)) from error
        if signal.getsignal(signal.SIGINT) == signal.SIG_DFL:  # all modules are there: from here on `main` catches it
            signal.signal(signal.SIGINT, signal.default_int_handler)
        command.help = as_called(command.help or "")
        return command

    def resolve_command(
        self, ctx: click.Context, args: list[str]
    ) -> tuple[str | None, click.Command | None, list[str]]:
        name, command, rest = super().resolve_command(ctx, args)
        if command is not None:
            _refuse_repeated(click.Context(command, parent=ctx, info_name=name), rest)
        return name, command, rest


def _refuse_repeated(ctx: click.Context, arguments: list[str]) -> None:
    """Refuse an option that is given again although it holds one value: click would drop all but the last."""
    try:
        given = ctx.command.make_parser(ctx).parse_args(list(arguments))[2]
    except click.UsageError:
        return  # the command says the same with its own usage
    for option, times in Counter(given).items():
        if times > 1 and isinstance(option, click.Option) and not (option.multiple or option.is_flag):
            raise click.UsageError(f"{option.opts[-1]} is given {times} times, but {ctx.info_name} takes one.", ctx)


def as_called(text: str) -> str:
    """A help text whose examples call the command as it is called here."""
    return text.replace(CHECKED_OUT, called())


def _print_version(ctx: click.Context, _: click.Parameter, asked: bool) -> None:
    """Version, commit and kit: of the checkout, or of the installed package's record."""
    if asked:
        from . import _proof

        root = checkout()
        own = INSTALLED / f"walzhik{_proof.ENDING}"
        fields = _proof.identity(root) if root else _proof.read(own.read_text(encoding="utf-8")).fields
        click.echo(f"walzhik {fields['version']}, commit {fields['commit']}, kit {fields['kit']}")
        ctx.exit()


@click.command(cls=Commands, context_settings={"help_option_names": ["-h", "--help"], "max_content_width": 120})
@click.option(
    "--version",
    is_flag=True,
    is_eager=True,
    expose_value=False,
    callback=_print_version,
    help="Print version, commit and kit.",
)
def cli() -> None:
    """Growth curves of tree rings, and ring indices by them.

    Curves, indices and the reading of Tucson files come from the engine, which is proved. This command around it, the
    fit, the pictures and the reading of other files are tested, not proved.

    \b
    ./walzhik fit examples/tucson/oak.rwl --series ROOF04E -o roof.sheet
    ./walzhik indices examples/tucson/oak.rwl --series ROOF04E --curve roof.sheet -o roof.csv

    Exit status: 0 done, 1 refused, 2 wrong usage or something unreadable.
    """


def main(arguments: list[str] | None = None) -> Any:
    """Run the command and end with its status."""
    keep_to_one()
    escape_names(sys.stdout, sys.stderr)
    cli.help = as_called(cli.help or "")
    try:
        status = cli.main(args=arguments, prog_name=called(), standalone_mode=False)
        sys.exit(status if isinstance(status, int) else DONE)
    except click.exceptions.Abort:
        sys.exit(INTERRUPTED)
    except click.ClickException as error:
        error.show()
        sys.exit(error.exit_code)
    except Exception as error:
        from .failures import told

        failure = told(error)
        if failure is None:
            traceback.print_exc()
            click.echo("This is a fault of the command itself. Please send these lines to the maintainers.", err=True)
            sys.exit(UNUSABLE)
        failure.show()
        sys.exit(failure.exit_code)
