"""The command survey-gate: its arguments and its exit status.

0: every sheet passes. 1: some sheet is held. 2: something is refused. 3: trouble, such as wrong usage or a file
that cannot be read or written. The highest that applies is given.
"""

from __future__ import annotations

import argparse
import os
import sys
from typing import Callable, List, NoReturn, Optional, Sequence

from . import commands
from .output import REFUSED, TROUBLE, Output
from .refusals import told
from .sizes import HIGHEST_CHOICE, HIGHEST_LIMIT
from .trouble import Refused, Trouble, shown

EPILOG = "exit status: 0 all pass, 1 some held, 2 some refused, 3 trouble (usage, a file that cannot be read or written)"
RECIPE = "a recipe's text or its file"
SHEET = "a table of readings (CSV) or a sheet's file"


class Parser(argparse.ArgumentParser):
    """Wrong usage is one line and status 3."""

    def error(self, message: str) -> NoReturn:
        """Raises, where argparse would print its usage and end with 2."""
        raise Trouble(f"{self.prog}: {shown(message)}; see {self.prog} --help")


def whole(most: int) -> Callable[[str], int]:
    """A whole number from 0 to `most`, in decimal digits."""

    def number(word: str) -> int:
        """The number, or the reason why it is none."""
        if not (word.isascii() and word.isdigit() and len(word) <= len(str(most)) and int(word) <= most):
            raise argparse.ArgumentTypeError(f"'{shown(word[:20])}' is no whole number from 0 to {most}")
        return int(word)

    return number


def numbers(words: str) -> List[int]:
    """Choices, with commas between."""
    return [whole(HIGHEST_CHOICE)(word.strip()) for word in words.split(",") if word.strip()]


def parser() -> Parser:
    """The whole command line."""
    top = Parser(prog="survey-gate", description="The proved gate against integer overflow.", epilog=EPILOG, allow_abbrev=False)
    top.add_argument("--explain", metavar="K", help="print the page on refusal K")
    top.set_defaults(act=None, quiet=False, json=False)
    kinds = top.add_subparsers(metavar="COMMAND", parser_class=Parser)
    _gate_commands(kinds)
    _form_commands(kinds)
    return top


def _command(kinds: argparse._SubParsersAction, name: str, act: commands.Arguments, text: str, json: bool = False) -> Parser:
    """A command with what all have in common."""
    made = kinds.add_parser(name, help=text, description=text, epilog=EPILOG, allow_abbrev=False)
    made.set_defaults(act=act)
    made.add_argument("-q", "--quiet", action="store_true", help="print trouble only")
    if json:
        made.add_argument("--json", action="store_true", help="an object a line")
    return made


def _gate_commands(kinds: argparse._SubParsersAction) -> None:
    """check, run, derive and list."""
    check = _command(kinds, "check", commands.check, "whether each sheet passes, and why not", json=True)
    check.add_argument("--condition", metavar="FILE", help="a condition file, which must be the recipe's own")
    check.add_argument("recipe", metavar="RECIPE", help=RECIPE)
    check.add_argument("sheets", metavar="SHEET", nargs="+", help=SHEET)

    run = _command(kinds, "run", commands.run, "run the recipe on a sheet that passes, and log its sites", json=True)
    run.add_argument("recipe", metavar="RECIPE", help=RECIPE)
    run.add_argument("sheet", metavar="SHEET", help=SHEET)
    run.add_argument("log", metavar="LOG", help="the log to write")
    which = run.add_mutually_exclusive_group()
    which.add_argument("--choices", metavar="FILE", help="a choice file")
    which.add_argument("--take", metavar="N,N,...", type=numbers, help="the number of the reading that each read takes, from 0")
    run.add_argument("--limit", metavar="STEPS", type=whole(HIGHEST_LIMIT), help="the most steps (10000, or the choice file's)")
    run.add_argument("--unguarded", dest="guarded", action="store_false", help="run also what the gate holds; overflows are marked")

    derive = _command(kinds, "derive", commands.derive, "write the recipe's condition", json=True)
    derive.add_argument("recipe", metavar="RECIPE", help=RECIPE)
    derive.add_argument("condition", metavar="CONDITION", help="the condition file to write")

    lists = _command(kinds, "list", commands.list_conjuncts, "print the recipe's conjuncts", json=True)
    lists.add_argument("--raw", action="store_true", help="in postfix, as document 01 prints them")
    lists.add_argument("recipe", metavar="RECIPE", help=RECIPE)


def _form_commands(kinds: argparse._SubParsersAction) -> None:
    """recipe, sheet, records and choices."""
    recipe = kinds.add_parser("recipe", help="a recipe's file from its text, and back; one of the old form in today's", allow_abbrev=False)
    forms = recipe.add_subparsers(metavar="make|show|convert", required=True, parser_class=Parser)
    make = _command(forms, "make", commands.recipe_make, "write a recipe's file from its text")
    make.add_argument("text", metavar="TEXT")
    make.add_argument("output", metavar="RECIPE")
    show = _command(forms, "show", commands.recipe_show, "print a recipe's text, or write it")
    show.add_argument("recipe", metavar="RECIPE", help=RECIPE)
    show.add_argument("output", metavar="TEXT", nargs="?")
    convert = _command(forms, "convert", commands.recipe_convert, "write a recipe's file of the old form, without bits of fields, in today's")
    convert.add_argument("recipe", metavar="OLD", help="a recipe's file of the old form")
    convert.add_argument("output", metavar="NEW", help="the recipe's file to write")

    sheet = kinds.add_parser("sheet", help="a sheet's file from a table, and back", allow_abbrev=False)
    forms = sheet.add_subparsers(metavar="make|show", required=True, parser_class=Parser)
    make = _command(forms, "make", commands.sheet_make, "write a sheet's file from a table")
    make.add_argument("recipe", metavar="RECIPE", help=RECIPE)
    make.add_argument("table", metavar="CSV")
    make.add_argument("output", metavar="SHEET")
    show = _command(forms, "show", commands.sheet_show, "print a sheet as a table, or write it")
    show.add_argument("recipe", metavar="RECIPE", help=RECIPE)
    show.add_argument("sheet", metavar="SHEET", help=SHEET)
    show.add_argument("output", metavar="CSV", nargs="?")

    records = _command(kinds, "records", commands.records, "print a log in words", json=True)
    records.add_argument("recipe", metavar="RECIPE", help=RECIPE)
    records.add_argument("log", metavar="LOG")

    choices = _command(kinds, "choices", commands.choices, "write a choice file")
    choices.add_argument("output", metavar="FILE")
    choices.add_argument("limit", metavar="LIMIT", type=whole(HIGHEST_LIMIT), help="the most steps; 0 means 10000")
    choices.add_argument("choice", metavar="CHOICE", type=whole(HIGHEST_CHOICE), nargs="*", help="which reading a read takes, from 0")


def main(words: Optional[Sequence[str]] = None) -> int:
    """Runs the command and gives its exit status."""
    _prepare_streams()
    try:
        status = _act(sys.argv[1:] if words is None else words)
        sys.stdout.flush()
        return status
    except OSError as error:
        return _lost_output(error)
    except KeyboardInterrupt:
        print("survey-gate: interrupted", file=sys.stderr)
        return TROUBLE


def _prepare_streams() -> None:
    """What an encoding cannot say is escaped; a stream that is closed from the start takes nothing."""
    for name in ("stdout", "stderr"):
        stream = getattr(sys, name)
        if stream is None:
            setattr(sys, name, open(os.devnull, "w", encoding="utf-8"))
        elif hasattr(stream, "reconfigure"):
            stream.reconfigure(errors="backslashreplace")


def _act(words: Sequence[str]) -> int:
    """Parses the words and does what they say."""
    output = Output()
    try:
        arguments = parser().parse_args(words)
        output = Output(arguments.quiet, arguments.json)
        if arguments.explain is not None:
            return commands.explain(arguments.explain)
        if arguments.act is None:
            raise Trouble("survey-gate: no command; see survey-gate --help")
        return arguments.act(arguments, output)
    except SystemExit as done:  # argparse has printed its help
        return int(done.code or 0)
    except Refused as refused:
        name = getattr(arguments, "sheet" if refused.number == 13 else "recipe", "")
        print(f"{shown(name)}: {told(refused)}", file=sys.stderr)
        return REFUSED
    except Trouble as trouble:
        return output.trouble(trouble)


def _lost_output(error: OSError) -> int:
    """Standard output is full or closed: say so once, and let the interpreter end in peace."""
    os.dup2(os.open(os.devnull, os.O_WRONLY), sys.stdout.fileno())
    if not isinstance(error, BrokenPipeError):
        print(f"survey-gate: standard output: {error.strerror}", file=sys.stderr)
    return TROUBLE
