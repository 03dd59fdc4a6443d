"""The commands. Each takes the parsed arguments and the output, and gives the exit status.

Inputs are read before anything is written. An answer of the gate that is no pass leaves nothing under the
output's name: an older file there is moved aside.
"""

from __future__ import annotations

import argparse
import sys
from typing import List, Optional, Tuple

from . import files, gate, recipe_file
from .condition import Condition
from .library import load
from .output import PASS, REFUSED, Output
from .progress import Progress
from .recipe import Recipe
from .records import ENDS, choice_bytes, choice_file, from_choice_file, records_of
from .refusals import page, told
from .sheet import Sheet
from .sizes import CONDITION_ROOM, LONGEST_CHOICES, LONGEST_TEXT, MOST_RECORDS, RECORD_BYTES, USUAL_LIMIT
from .trouble import Disagreement, Refused, Trouble, shown

Arguments = argparse.Namespace


# ---- check


def check(arguments: Arguments, output: Output) -> int:
    """A line for each sheet: pass, held with the cause and the reason, or refused with its meaning."""
    try:
        recipe, condition = _recipe_and_condition(arguments, output)
    except Refused as refused:
        blamed, where = (arguments.condition, "condition") if refused.number == 12 else (arguments.recipe, "recipe")
        output.refused(blamed, refused)
        for path in arguments.sheets:
            output.refused(path, Refused(refused.number, f"in the {where}"))
        return REFUSED
    status = PASS
    with Progress(len(arguments.sheets), arguments.quiet) as progress:
        for path in arguments.sheets:
            status = max(status, _check_sheet(path, recipe, condition, output, progress))
    return status


def _recipe_and_condition(arguments: Arguments, output: Output) -> Tuple[Recipe, Condition]:
    """The recipe and its condition; a condition that is given must be the recipe's own."""
    recipe = _gated_recipe(arguments.recipe, output)
    condition = _derived(recipe, arguments)
    if arguments.condition:
        given = _gated_condition(arguments.condition)
        if given.data != condition.data:
            raise Trouble(f"{shown(arguments.condition)}: not the condition of {shown(arguments.recipe)}; derive it again")
    return recipe, condition


def _derived(recipe: Recipe, arguments: Arguments) -> Condition:
    """The recipe's condition; where it is refused and the cause takes long to find, a line says so."""
    with Progress(0, arguments.quiet):
        return gate.derive(recipe)


def _check_sheet(path: str, recipe: Recipe, condition: Condition, output: Output, progress: Progress) -> int:
    """One sheet: its line, and its status."""
    try:
        sheet = _gated_sheet(path, recipe)
        progress.sheet(shown(path), condition.work(sheet.columns))
        verdict = gate.check(recipe, sheet, condition, progress.tick)
    except Refused as refused:
        progress.clear()
        return output.refused(path, refused)
    except Disagreement as disagreement:
        progress.clear()
        return output.trouble(Trouble(f"{shown(path)}: {disagreement}"), path)
    except Trouble as trouble:
        progress.clear()
        return output.trouble(trouble, path)
    finally:
        progress.finished()
    progress.clear()
    output.warn(path, sheet.warnings)
    return output.passed(path) if verdict.passed else output.held(path, verdict)


def _gated_recipe(path: str, output: Output) -> Recipe:
    """The recipe at a path; a file's refusal must be the gate's."""
    data = files.read(path, LONGEST_TEXT)
    try:
        recipe = Recipe.from_either(data, path)
    except Refused as refused:
        raise _agreed(path, refused, load().refusal(data)) from None
    output.warn(path, recipe.warnings)
    return recipe


def _gated_sheet(path: str, recipe: Recipe) -> Sheet:
    """The sheet at a path; a file's refusal must be the gate's, which a run of no steps tells."""
    data = files.read(path, LONGEST_TEXT)
    try:
        return Sheet.from_either(data, recipe, path)
    except Refused as refused:
        answer = load().answer(lambda library: library.run(recipe.to_bytes(), data, 0, b"", 0))
        raise _agreed(path, refused, answer) from None


def _gated_condition(path: str) -> Condition:
    """The condition at a path; its refusal must be the gate's."""
    data = files.read(path, CONDITION_ROOM)
    try:
        return Condition.from_bytes(data)
    except Refused as refused:
        raise _agreed(path, refused, load().answer(lambda library: library.check(data, b""))) from None


def _agreed(path: str, refused: Refused, answer: int) -> Exception:
    """The refusal, or Trouble where the gate's answer is another."""
    if answer == refused.number:
        return refused
    return Trouble(f"{shown(path)}: {told(refused)}, and the gate answers {answer}: one of the two is wrong")


# ---- run, derive, list


def run(arguments: Arguments, output: Output) -> int:
    """The recipe on the sheet, behind the gate unless told otherwise; the log is written if it ran."""
    inputs = [arguments.recipe, arguments.sheet] + ([arguments.choices] if arguments.choices else [])
    files.refuse_input_as_output(arguments.log, inputs)
    limit, choices = _limit_and_choices(arguments)
    blamed = arguments.recipe
    try:
        recipe = _gated_recipe(arguments.recipe, output)
        condition = _derived(recipe, arguments) if arguments.guarded else None
        blamed = arguments.sheet
        sheet = _gated_sheet(blamed, recipe)
        with Progress(1, arguments.quiet) as progress:
            progress.sheet(shown(blamed), condition.work(sheet.columns) if condition else 0)
            ran = gate.run_choices(recipe, sheet, choices, limit, condition, progress.tick)
    except Refused as refused:
        return output.refused(blamed, refused, files.move_aside(arguments.log))
    except Disagreement as disagreement:
        raise Trouble(f"{shown(blamed)}: {disagreement}") from None
    output.warn(arguments.sheet, sheet.warnings)
    if ran.verdict and not ran.verdict.passed:
        return output.held(arguments.sheet, ran.verdict, files.move_aside(arguments.log))
    files.write(arguments.log, ran.log)
    return _told_run(arguments, output, ran)


def _told_run(arguments: Arguments, output: Output, ran: gate.Run) -> int:
    """The line of a run."""
    overflowed = sum(record.overflowed for record in ran.records)
    records = f"{len(ran.records)} record{'s' * (len(ran.records) != 1)}" + (f", {overflowed} OVERFLOWED," if overflowed else "")
    text = f"end {ran.end} ({ENDS[ran.end]}) after {ran.steps} steps, {records} in {shown(arguments.log)}"
    parts = {"end": ran.end, "ended": ENDS[ran.end], "steps": ran.steps, "records": [r._asdict() for r in ran.records]}
    if ran.verdict:
        return output.passed(arguments.sheet, text, **parts)
    output.answer(f"{shown(arguments.sheet)}: not gated; {text}", file=arguments.sheet, verdict="not gated", **parts)
    return PASS


def _limit_and_choices(arguments: Arguments) -> Tuple[int, bytes]:
    """The step limit and the choices, from a file or from the command line."""
    limit, choices = USUAL_LIMIT, choice_bytes(arguments.take or [])
    if arguments.choices:
        limit, choices = from_choice_file(files.read(arguments.choices, LONGEST_CHOICES))
    if arguments.limit is not None:
        limit = arguments.limit
    return limit, choices


def derive(arguments: Arguments, output: Output) -> int:
    """The recipe's condition file."""
    files.refuse_input_as_output(arguments.condition, [arguments.recipe])
    name = arguments.recipe
    try:
        condition = _derived(_gated_recipe(name, output), arguments)
    except Refused as refused:
        return output.refused(name, refused, files.move_aside(arguments.condition))
    files.write(arguments.condition, condition.data)
    number = len(condition.conjuncts)
    text = f"{shown(name)}: conjuncts {number} in {shown(arguments.condition)}"
    output.answer(text, file=name, verdict="derived", conjuncts=number)
    return PASS


def list_conjuncts(arguments: Arguments, output: Output) -> int:
    """The conjuncts, in infix or as document 01 prints them."""
    try:
        recipe = _gated_recipe(arguments.recipe, output)
        condition = _derived(recipe, arguments)
    except Refused as refused:
        if not arguments.raw:
            return output.refused(arguments.recipe, refused)
        output.answer(f"refused {refused.number}")
        return REFUSED
    if arguments.raw:
        output.answer(condition.raw().rstrip("\n"))
        return PASS
    names = [part.name for part in recipe.fields]
    if not output.as_json:
        output.answer(f"conjuncts {len(condition.conjuncts)}")
    for number, conjunct in enumerate(condition.conjuncts):
        text = conjunct.infix(names)
        output.answer(f"{number}: {text}", conjunct=number, infix=text, raw=conjunct.raw())
    return PASS


# ---- forms


def recipe_make(arguments: Arguments, output: Output) -> int:
    """A recipe's file from its text."""
    files.refuse_input_as_output(arguments.output, [arguments.text])
    recipe = Recipe.read(arguments.text)
    output.warn(arguments.text, recipe.warnings)
    files.write(arguments.output, recipe.to_bytes())
    return PASS


def recipe_show(arguments: Arguments, output: Output) -> int:
    """A recipe's text from its file."""
    return _shown(Recipe.read(arguments.recipe).to_text(), arguments.output, [arguments.recipe])


def recipe_convert(arguments: Arguments, output: Output) -> int:
    """A recipe's file from one of the old form, by the proved library; a refusal's place is found beside it."""
    files.refuse_input_as_output(arguments.output, [arguments.recipe])
    name = arguments.recipe
    data = files.read(name, LONGEST_TEXT)
    if not recipe_file.looks_packed(data):
        raise Trouble(f"{shown(name)}: no recipe's file; of a text `survey-gate recipe make` makes one")
    found = recipe_file.refusal(data, recipe_file.OLD)
    try:
        recipe = load().convert(data)
    except Refused as refused:
        if found is None:
            raise Trouble(f"{shown(name)}: the gate answers {refused.number}, and by its parts it is right: one of the two is wrong") from None
        known = "" if recipe_file.refusal(data, recipe_file.TODAY) else "; it is of today's form already"
        agreed = _agreed(name, Refused(found.number, found.place + known), refused.number)
        if isinstance(agreed, Trouble):
            raise agreed from None
        return output.refused(name, agreed, files.move_aside(arguments.output))
    if found is not None:
        raise _agreed(name, found, 0)
    files.write(arguments.output, recipe)
    return PASS


def sheet_make(arguments: Arguments, output: Output) -> int:
    """A sheet's file from a table."""
    files.refuse_input_as_output(arguments.output, [arguments.recipe, arguments.table])
    recipe = Recipe.read(arguments.recipe)
    sheet = Sheet.read(arguments.table, recipe)
    output.warn(arguments.table, sheet.warnings)
    files.write(arguments.output, sheet.to_bytes())
    return PASS


def sheet_show(arguments: Arguments, output: Output) -> int:
    """A table from a sheet's file."""
    recipe = Recipe.read(arguments.recipe)
    return _shown(Sheet.read(arguments.sheet, recipe).to_csv(recipe), arguments.output, [arguments.recipe, arguments.sheet])


def _shown(text: str, target: Optional[str], inputs: List[str]) -> int:
    """Text to a file, or to standard output."""
    if target is None:
        sys.stdout.write(text)
        return PASS
    files.refuse_input_as_output(target, inputs)
    files.write(target, text.encode("utf-8"))
    return PASS


def records(arguments: Arguments, output: Output) -> int:
    """A log in words."""
    recipe = Recipe.read(arguments.recipe)
    log = files.read(arguments.log, MOST_RECORDS * RECORD_BYTES)
    for record in records_of(log, recipe, shown(arguments.log)):
        output.answer(str(record), **record._asdict())
    return PASS


def choices(arguments: Arguments, output: Output) -> int:
    """A choice file."""
    files.write(arguments.output, choice_file(arguments.limit, arguments.choice))
    return PASS


def explain(number: str) -> int:
    """The page of REFUSALS.md."""
    if not (number.isascii() and number.isdigit() and len(number) < 4):
        raise Trouble(f"--explain {shown(number)}: give the number of a refusal, as --explain 9")
    sys.stdout.write(page(int(number)))
    return PASS


