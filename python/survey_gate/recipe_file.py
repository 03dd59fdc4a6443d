"""The recipe's file: its bytes from the parts, and the parts from its bytes.

The reader makes document 01's checks 2 to 8 and document 02's 16 in their order, each over the whole recipe before
the next, so that the number that it refuses with is the gate's; it adds the entry that is wrong. It reads the old form
too, in which a field was its type alone, so that the refusal of a conversion has a place.
"""

from __future__ import annotations

import struct
from typing import List, NamedTuple, Optional, Sequence, Tuple

from . import fields
from . import procedures as procedures_checked
from .ranges import TYPES, fits, immediate_value, is_signed
from .sizes import (
    FIELD_BYTES,
    LONGEST_OLD_RECIPE,
    LONGEST_RECIPE,
    MOST_CELLS,
    MOST_DEPTH,
    MOST_FIELDS,
    MOST_PARAMETERS,
    MOST_STATEMENTS,
    MOST_TRAYS,
    MOST_VARIABLES,
    OLD_FIELD_BYTES,
    SECTION_TABLE,
    STATEMENT_BYTES,
)
from .statements import OPERANDS, Kind, Named, Names, Procedure, Statement, agreeing, arguments, indexed_by, opened, text_of
from .trouble import Refused, count

MAGIC = SECTION_TABLE.to_bytes(4, "little")


class Section(NamedTuple):
    """A section of the file: its name, the width of an entry and how many it may have."""

    name: str
    entry: int
    most: int


class Form(NamedTuple):
    """A form of the file: its most bytes and the width of a field's entry."""

    longest: int
    field: int

    @property
    def sections(self) -> Tuple[Section, ...]:
        """The sections, in their order."""
        return (
            Section("fields", self.field, MOST_FIELDS),
            Section("variables", 1, MOST_VARIABLES),
            Section("trays", 4, MOST_TRAYS),
            Section("statements", STATEMENT_BYTES, MOST_STATEMENTS),
        )


TODAY = Form(LONGEST_RECIPE, FIELD_BYTES)
OLD = Form(LONGEST_OLD_RECIPE, OLD_FIELD_BYTES)


def packed(names: Names, statements: Sequence[Statement]) -> bytes:
    """The file of a recipe."""
    sections = [
        fields.packed(names["field"]),
        bytes(variable.code for variable in names["variable"]),
        b"".join(struct.pack("<BBH", tray.code, 0, tray.cells) for tray in names["tray"]),
        b"".join(struct.pack("<BBBBI", *statement) for statement in statements),
    ]
    table, at = b"", SECTION_TABLE
    for section in sections:
        table += struct.pack("<II", at, len(section))
        at += len(section)
    return table + b"".join(sections)


def looks_packed(data: bytes) -> bool:
    """A recipe's file begins with its first offset, 32; no text does."""
    return data[:4] == MAGIC


def unpacked(data: bytes) -> Tuple[Names, List[Statement]]:
    """The parts of a file, with the names f0, v0 and t0 onward; or Refused with 2 to 8 or 16 and the entry."""
    try:
        return _unpacked(data, TODAY)
    except Refused as refused:
        hint = "" if refusal(data, OLD) else "; by the old form it is right: `survey-gate recipe convert` makes today's of it"
        raise Refused(refused.number, refused.place + hint) from None


def refusal(data: bytes, form: Form) -> Optional[Refused]:
    """What a file is refused with by a form; nothing where it is right."""
    try:
        _unpacked(data, form)
    except Refused as refused:
        return refused
    return None


def _unpacked(data: bytes, form: Form) -> Tuple[Names, List[Statement]]:
    """The parts of a file of a form."""
    sections = _sections(data, form)
    for section, entries in zip(form.sections, sections):
        if len(entries) > section.most:
            raise Refused(3, f"{count(len(entries))} {section.name}, and at most {count(section.most)} are allowed")
    names = _names(sections)
    statements = [Statement(*struct.unpack("<BBBBI", entry)) for entry in sections[3]]
    procedures = opened(statements)
    for check in (_operands, _types, _numbers):
        for label, statement in enumerate(statements):
            check(label, statement, names, procedures)
    _blocks(statements)
    procedures_checked.check(statements, procedures, names)
    return names, statements


def _sections(data: bytes, form: Form) -> List[List[bytes]]:
    """The entries of the four sections, or refusal 2."""
    if not SECTION_TABLE <= len(data) <= form.longest:
        least, most = SECTION_TABLE, count(form.longest)
        raise Refused(2, f"it has {count(len(data))} bytes, and a recipe has {least} to {most}")
    at, sections = SECTION_TABLE, []
    for number, section in enumerate(form.sections):
        offset, length = struct.unpack_from("<II", data, 8 * number)
        if offset != at:
            raise Refused(2, f"the {section.name} start at byte {offset} by the table, and at {at} by what is before")
        if length % section.entry:
            raise Refused(2, f"the {section.name} take {length} byte{'s' * (length != 1)}, no multiple of {section.entry}")
        if at + length > len(data):
            raise Refused(2, f"the {section.name} end at byte {at + length}, and the file at {len(data)}")
        sections.append([data[i : i + section.entry] for i in range(at, at + length, section.entry)])
        at += length
    if at != len(data):
        raise Refused(2, f"the statements end at byte {at}, and the file at {len(data)}")
    return sections


def _names(sections: List[List[bytes]]) -> Names:
    """The named parts, or refusal 4."""
    names: Names = {"field": [], "variable": [], "tray": []}
    for what, entries in zip(names, sections):
        for number, entry in enumerate(entries):
            if entry[0] >= len(TYPES):
                raise Refused(4, f"{what} {number} has type code {entry[0]}, and the highest is {len(TYPES) - 1}")
            cells = bits = 0
            if what == "field":
                bits = _bits(number, entry)
            if what == "tray":
                zero, cells = entry[1], int.from_bytes(entry[2:], "little")
                if zero:
                    raise Refused(4, f"the zero byte of tray {number} is {zero}")
                if not 1 <= cells <= MOST_CELLS:
                    raise Refused(4, f"tray {number} has {cells} cells, and a tray has 1 to {MOST_CELLS}")
            names[what].append(Named(f"{what[0]}{number}", entry[0], cells, bits))
    return names


def _bits(number: int, entry: bytes) -> int:
    """The bits of a field, all of its type's in the old form; or refusal 4."""
    if len(entry) == OLD_FIELD_BYTES:
        return fields.all_bits(entry[0])
    wrong = fields.wrong(entry)
    if wrong:
        raise Refused(4, f"field {number} {wrong}")
    return fields.unpacked(entry)[0].bits


def _operands(label: int, statement: Statement, names: Names, procedures: Sequence[Procedure]) -> None:
    """Refusal 5."""
    if statement.kind not in OPERANDS:
        raise Refused(5, f"label {label} has kind {statement.kind}, and the highest is {Kind.CALL}")
    place = f"label {label}, kind {statement.kind}"
    if statement.kind == Kind.PROCEDURE:
        _opening(place, statement, names)
        return
    for letter, what, number in zip("abc", OPERANDS[statement.kind], statement[1:4]):
        if what is None and number and (statement.kind, letter) != (Kind.CALL, "b"):
            raise Refused(5, f"{place}: {letter} is {number}, and this kind does not use it")
        if what is not None and number >= len(names[what]):
            raise Refused(5, f"{place}: {letter} is {what} {number}, and there are {len(names[what])}")
    if statement.kind == Kind.CALL:
        _call(place, statement, names, procedures)
    elif statement.kind != Kind.NUMBER and statement.immediate:
        raise Refused(5, f"{place}: it has an immediate, and this kind does not use it")


def _opening(place: str, statement: Statement, names: Names) -> None:
    """Refusal 5 of a procedure's opening."""
    there = len(names["variable"])
    if statement.a > MOST_PARAMETERS:
        raise Refused(5, f"{place}: a is {statement.a} parameters, and a procedure has at most {MOST_PARAMETERS}")
    if statement.b + statement.c > there:
        raise Refused(5, f"{place}: {statement.c} own variables from {statement.b} on, and there are {there} variables")
    if statement.immediate:
        raise Refused(5, f"{place}: it has an immediate, and this kind does not use it")


def _call(place: str, statement: Statement, names: Names, procedures: Sequence[Procedure]) -> None:
    """Refusal 5 of what a call names beside its target."""
    if statement.b >= len(procedures):
        raise Refused(5, f"{place}: b is procedure {statement.b}, and there are {len(procedures)}")
    taken = procedures[statement.b].parameters
    for number, variable in enumerate(statement.immediate.to_bytes(4, "little")):
        if number >= taken and variable:
            raise Refused(5, f"{place}: argument {number} is {variable}, and procedure {statement.b} has {taken} parameters")
        if number < taken and variable >= len(names["variable"]):
            raise Refused(5, f"{place}: argument {number} is variable {variable}, and there are {len(names['variable'])}")


def _types(label: int, statement: Statement, names: Names, procedures: Sequence[Procedure]) -> None:
    """Refusal 6."""
    groups = _of_a_call(statement, names, procedures) if statement.kind == Kind.CALL else [agreeing(statement, names)]
    for parts in groups:
        if len({part.code for part in parts}) > 1:
            told = ", ".join(f"{part.name} is {TYPES[part.code]}" for part in parts)
            raise Refused(6, f"label {label} ({text_of(statement, names, procedures)}): {told}")
    place = indexed_by(statement)
    if place >= 0:
        index = names["variable"][statement[1 + place]]
        if is_signed(index.code):
            told = f"the index {index.name} is {TYPES[index.code]}"
            raise Refused(6, f"label {label} ({text_of(statement, names, procedures)}): {told}, and an index is unsigned")


def _of_a_call(call: Statement, names: Names, procedures: Sequence[Procedure]) -> List[List[Named]]:
    """What must agree at a call: each argument with its parameter, and the target with the result.

    A call to a procedure with no own variables or fewer than its parameters is passed over.
    """
    procedure, variables = procedures[call.b], names["variable"]
    if not procedure.has_enough:
        return []
    pairs = [*zip(arguments(call, procedures), procedure.own), (call.a, procedure.own[-1])]
    return [[variables[left], variables[right]] for left, right in pairs]


def _numbers(label: int, statement: Statement, names: Names, procedures: Sequence[Procedure]) -> None:
    """Refusal 7."""
    if statement.kind == Kind.NUMBER:
        variable = names["variable"][statement.a]
        if not fits(variable.code, immediate_value(variable.code, statement.immediate)):
            raise Refused(7, f"label {label} ({text_of(statement, names, procedures)}): {variable.name} is {TYPES[variable.code]}")


def _blocks(statements: List[Statement]) -> None:
    """Refusal 8. A procedure is closed by an end, and does not count as a nested block."""
    open_blocks: List["tuple[int, int]"] = []
    for label, statement in enumerate(statements):
        kind = statement.kind
        if kind in (Kind.IF, Kind.WHILE, Kind.PROCEDURE):
            open_blocks.append((kind, label))
            if sum(kind != Kind.PROCEDURE for kind, _ in open_blocks) > MOST_DEPTH:
                raise Refused(8, f"label {label} opens a block {MOST_DEPTH + 1} deep, and at most {MOST_DEPTH} are allowed")
        elif kind == Kind.ELSE:
            if not open_blocks or open_blocks[-1][0] != Kind.IF:
                raise Refused(8, f"the else at label {label} belongs to no if")
            open_blocks[-1] = (Kind.ELSE, open_blocks[-1][1])
        elif kind == Kind.END:
            if not open_blocks:
                raise Refused(8, f"the end at label {label} closes nothing")
            opening, start = open_blocks.pop()
            if opening == Kind.IF:
                raise Refused(8, f"the if at label {start} has no else")
    if open_blocks:
        what = "procedure" if open_blocks[-1][0] == Kind.PROCEDURE else "block"
        raise Refused(8, f"the {what} that label {open_blocks[-1][1]} opens has no end")
