"""The two lines of procedures in a recipe's text: a procedure's opening, and a call.

An opening declares the own variables: the parameters, the others, and behind `->` the result, which is the last. A
name without a type is one that is declared above; so every order of numbers that a file may have can be written.
"""

from __future__ import annotations

import re
from typing import TYPE_CHECKING, List, Optional

from . import hints
from .ranges import TYPES
from .sizes import MOST_PARAMETERS
from .statements import Kind, Procedure
from .text_names import Known, Scope, Wrong
from .trouble import excerpt

if TYPE_CHECKING:
    from .text import Reader


def open_procedure(reader: "Reader", name: str, parameters: str, others: str, result: str) -> None:
    """Opens a procedure."""
    place, nested = _misplaced(reader), reader.inside
    reader.open_blocks.append(("proc", reader.line))
    before = len(reader.mistakes)
    taken = _items(parameters)
    own = _own_variables(reader, name, taken + _items(others), result)
    if len(taken) > MOST_PARAMETERS:
        reader.note(f"{name} has {len(taken)} parameters", f"a procedure has at most {MOST_PARAMETERS}")
    right = len(reader.mistakes) == before and all(reader.known[own_name].code is not None for own_name in own)
    reader.inside = nested or Scope(name, reader.line, right)
    _declare(reader, name, len(taken), own if right else [])
    if place:
        raise place


def _misplaced(reader: "Reader") -> Optional[Wrong]:
    """What is wrong with the place of a procedure that opens here."""
    if reader.inside:
        right = f"close the one of line {reader.inside.line} above it"
        return Wrong(f"this procedure stands inside {reader.inside.name or 'another'}", right)
    right = "procedures come before all other statements"
    if reader.open_blocks:
        word, line = reader.open_blocks[-1]
        return Wrong(f"this procedure stands inside the {word} of line {line}", right)
    return Wrong(f"this procedure stands below line {reader.first_outside}", right) if reader.first_outside else None


def _items(words: str) -> List[str]:
    """What commas part."""
    return [item.strip() for item in words.split(",")] if words.strip() else []


def _own_variables(reader: "Reader", procedure: str, items: List[str], result: str) -> List[str]:
    """The names of a procedure's own variables; what is wrong with them is noted.

    The result is one more, unless it is the last before it.
    """
    if not items or items[-1].split()[:1] != result.split():
        items = items + [result]
    own = []
    for item in items:
        try:
            own.append(_own_variable(reader, procedure, item))
        except Wrong as wrong:
            reader.note(wrong.wrong, wrong.right)
    numbers = [reader.known[name].number for name in own if reader.known[name].code is not None]
    if len(numbers) == len(items) and numbers != list(range(numbers[0], numbers[0] + len(numbers))):
        right = "declare them in this line, each with its type"
        reader.note(f"the own variables of {procedure} do not follow each other", right)
    return own


def _own_variable(reader: "Reader", procedure: str, item: str) -> str:
    """The name of an own variable: `NAME TYPE` declares it, `NAME` is declared above."""
    name, *word = item.split() or [""]
    if not re.fullmatch(hints.NAME, name) or len(word) > 1:
        raise Wrong(f"{excerpt(item)} is no own variable", "write each as `NAME TYPE`, with commas between")
    if word:
        reader.declare("variable", name, word[0])
    elif name not in reader.known:
        raise Wrong(f"'{name}' has no type", f"say which, as `{name} u32`")
    else:
        reader.look_up("variable", name)
    if name in reader.owner:
        raise Wrong(f"'{name}' is an own variable of {reader.owner[name]}", "procedures share none: declare another")
    reader.owner[name] = procedure
    return name


def _declare(reader: "Reader", name: str, parameters: int, own: List[str]) -> None:
    """Declares a procedure and adds its opening; without own variables only its name is known."""
    reader.claim(name)
    if not own:
        reader.known[name] = Known("procedure", 0, None)
        return
    recipe, first = reader.recipe, reader.known[own[0]].number
    reader.known[name] = Known("procedure", len(recipe.procedures), 0)
    recipe.declared[name] = reader.line
    recipe.procedures.append(Procedure(name, len(recipe.statements), parameters, first, len(own)))
    reader.put(Kind.PROCEDURE, parameters, first, len(own))


def call(reader: "Reader", a: str, name: str, given: str) -> None:
    """A call."""
    target, found = reader.variable(a), reader.look_up("procedure", name)
    words = _items(given)
    for word in words:
        if not re.fullmatch(hints.NAME, word):
            raise Wrong(*hints.argument(a, name, word))
    numbers = [reader.variable(word).number for word in words]
    if reader.inside and reader.inside.name == name:
        raise Wrong(f"{name} calls itself", "a procedure calls those that stand above it")
    if found.code is None:
        return
    procedure = reader.recipe.procedures[found.number]
    _agree(reader, a, procedure, words)
    reader.put(Kind.CALL, target.number, found.number, immediate=int.from_bytes(bytes(numbers), "little"))


def _agree(reader: "Reader", a: str, procedure: Procedure, words: List[str]) -> None:
    """Wrong where a call's arguments are not as many as the parameters, or types differ."""
    own = [reader.recipe.variables[number].name for number in procedure.own]
    if len(words) != procedure.parameters:
        told = f"this call has {_numbered(len(words), 'argument')}, and {procedure.name} has {_numbered(procedure.parameters, 'parameter')}"
        parameters = ", ".join(own[: procedure.parameters])
        raise Wrong(told, f"give a variable for each of them: {parameters}" if parameters else f"write `{a} = call {procedure.name}()`")
    for parameter, word in zip(own, words):
        reader.agree(parameter, word)
    codes = reader.known[a].code, reader.known[own[-1]].code
    if None not in codes and codes[0] != codes[1]:
        told = f"types differ: {a} is {TYPES[codes[0]]}, {own[-1]} is {TYPES[codes[1]]}"
        raise Wrong(told, f"call into a variable of {own[-1]}'s type, as `y = call {procedure.name}(...)`, then `{a} = to y`")


def _numbered(number: int, word: str) -> str:
    """A number of things."""
    return f"{number or 'no'} {word}{'s' * (number != 1)}"
