"""A recipe: its fields, variables, trays and statements, from its text or its file and back to either."""

from __future__ import annotations

from dataclasses import dataclass, field
from typing import Dict, Iterable, List, Optional, Sequence

from . import fields, files, recipe_file
from .procedures import reached, start_of
from .ranges import TYPES
from .sizes import LONGEST_TEXT
from .statements import Kind, Named, Names, Procedure, Statement, opened, text_of
from .trouble import Mistake, Trouble, shown

MOST_PLACES_TOLD = 10
EMPTY = "# a recipe without fields, variables, trays and statements\n"


@dataclass
class Recipe:
    """A recipe.

    `fields`, `variables` and `trays` have a name, a type code and (trays) a number of cells or (fields) of bits each;
    `statements` are as in the file, and `procedures` those that they open. From a text, `lines` has the line of each
    statement, `declared` that of each name, and `named` is true; from a file the names are f0, v0, t0 and p0 onward.
    `warnings` say what is allowed and seldom meant.
    """

    fields: List[Named] = field(default_factory=list)
    variables: List[Named] = field(default_factory=list)
    trays: List[Named] = field(default_factory=list)
    statements: List[Statement] = field(default_factory=list)
    procedures: List[Procedure] = field(default_factory=list)
    lines: Optional[List[int]] = None
    declared: Dict[str, int] = field(default_factory=dict)
    named: bool = False
    warnings: List[Mistake] = field(default_factory=list)

    @classmethod
    def from_text(cls, text: str, name: str = "text") -> "Recipe":
        """The recipe of a text (docs/RECIPES.md); raises Mistakes with every wrong line. `name` is for messages."""
        from .text import Reader

        return Reader(name).read(text)

    @classmethod
    def from_bytes(cls, data: bytes) -> "Recipe":
        """The recipe of a file; raises Refused with 2 to 8 or 16 and the wrong entry."""
        names, statements = recipe_file.unpacked(data)
        recipe = cls(names["field"], names["variable"], names["tray"], statements, opened(statements))
        recipe.warnings = recipe.noticed()
        return recipe

    @classmethod
    def from_old_bytes(cls, data: bytes) -> "Recipe":
        """The recipe of a file of the form before fields had bits, converted by the proved library.

        Its fields have all bits of their types. Raises Refused with 2 to 8 or 16 of the old form and the wrong entry.
        """
        from .library import load

        try:
            return cls.from_bytes(load().convert(data))
        except Refused as refused:
            raise recipe_file.refusal(data, recipe_file.OLD) or refused from None

    @classmethod
    def read(cls, path: str) -> "Recipe":
        """The recipe at a path, in either form."""
        return cls.from_either(files.read(path, LONGEST_TEXT), path)

    @classmethod
    def from_either(cls, data: bytes, name: str) -> "Recipe":
        """The recipe of a file's content, in either form: a recipe's file begins with the number 32."""
        if recipe_file.looks_packed(data):
            return cls.from_bytes(data)
        if not data.strip():
            raise Trouble(f"{shown(name)}: empty; a recipe has at least a line")
        if b"\0" in data and data[:2] not in files.UTF_16_MARKS:
            raise Trouble(f"{shown(name)}: neither a recipe's text nor its file")
        text, warnings = files.decoded(data, name)
        recipe = cls.from_text(text, name)
        recipe.warnings = warnings + recipe.warnings
        return recipe

    @property
    def names(self) -> Names:
        """The fields, variables and trays by what they are."""
        return {"field": self.fields, "variable": self.variables, "tray": self.trays}

    @property
    def types(self) -> List[int]:
        """The type codes of the fields."""
        return [part.code for part in self.fields]

    def to_bytes(self) -> bytes:
        """The recipe's file."""
        return recipe_file.packed(self.names, self.statements)

    def without(self, labels: Iterable[int]) -> bytes:
        """The file of the recipe without the statements at these labels."""
        dropped = set(labels)
        kept = [statement for label, statement in enumerate(self.statements) if label not in dropped]
        return recipe_file.packed(self.names, kept)

    def to_text(self) -> str:
        """The recipe's text, indented by blocks. Reading it gives the same file.

        Variables are declared in the order of their numbers: a procedure declares its own, unless a procedure before it
        has higher ones.
        """
        lines = [fields.declared(part) for part in self.fields]
        declared = self.procedures[0].first if self.procedures else len(self.variables)
        lines += self._declarations(0, declared)
        lines += [f"tray {part.name} {TYPES[part.code]} {part.cells}" for part in self.trays]
        start = start_of(self.statements, self.procedures)
        for procedure, stop in zip(self.procedures, [after.label for after in self.procedures[1:]] + [start]):
            lines += self._declarations(declared, procedure.first)
            lines.append(procedure.header(self.variables, declares=procedure.first >= declared))
            declared = max(declared, procedure.own.stop)
            lines += self._indented(procedure.label + 1, stop, 1)
        lines += self._declarations(declared, len(self.variables))
        lines += self._indented(start, len(self.statements), 0)
        return "\n".join(lines) + "\n" if lines else EMPTY

    def _indented(self, start: int, stop: int, depth: int) -> List[str]:
        """The statements of some labels, as lines that are indented by blocks."""
        lines = []
        for statement in self.statements[start:stop]:
            depth -= statement.kind in (Kind.ELSE, Kind.END)
            lines.append("    " * depth + text_of(statement, self.names, self.procedures))
            depth += statement.kind in (Kind.IF, Kind.ELSE, Kind.WHILE)
        return lines

    def _declarations(self, start: int, stop: int) -> List[str]:
        """The lines that declare the variables of some numbers."""
        return [f"var {part.name} {TYPES[part.code]}" for part in self.variables[start:stop]]

    def statement_text(self, label: int) -> str:
        """The statement at a label, as a line of text."""
        for procedure in self.procedures:
            if procedure.label == label:
                return procedure.header(self.variables)
        return text_of(self.statements[label], self.names, self.procedures)

    def place(self, label: int) -> str:
        """Where a statement stands: its line in the text, or its label."""
        return f"line {self.lines[label]}" if self.lines else f"label {label}"

    def places(self, labels: Sequence[int]) -> str:
        """Where statements stand, as `lines 3, 5 and 8`."""
        if len(labels) == 1:
            return self.place(labels[0])
        numbers = [str(self.lines[label] if self.lines else label) for label in labels]
        if len(numbers) > MOST_PLACES_TOLD:
            numbers = numbers[:MOST_PLACES_TOLD] + [f"{len(numbers) - MOST_PLACES_TOLD} more"]
        return f"{'lines' if self.lines else 'labels'} {', '.join(numbers[:-1])} and {numbers[-1]}"

    def noticed(self) -> List[Mistake]:
        """Warnings: no site that is ever reached; a variable that is never set; a procedure that is never called."""
        found, run = [], [self.statements[label] for label in sorted(reached(self.statements, self.procedures))]
        if not any(statement.kind == Kind.SITE for statement in run):
            sites = any(statement.kind == Kind.SITE for statement in self.statements)
            wrong = "every site stands in a procedure that is never called" if sites else "the recipe has no site"
            found.append(Mistake(0, f"{wrong}, so every sheet passes", "mark what must not overflow, as `site x`"))
        for number, procedure in enumerate(self.procedures):
            if not any(statement.kind == Kind.CALL and statement.b == number for statement in run):
                wrong = f"{procedure.name} is never called, so nothing of it is run"
                found.append(Mistake(self.declared.get(procedure.name, 0), wrong, f"call it, as `x = call {procedure.name}(...)`"))
        written = {statement.a for statement in self.statements if statement.kind <= Kind.LOAD or statement.kind == Kind.CALL}
        written.update(number for procedure in self.procedures for number in procedure.own[: procedure.parameters])
        for number, variable in enumerate(self.variables):
            if number not in written:
                wrong = f"{variable.name} is never set, so it is 0 throughout"
                line = self.declared.get(variable.name, 0)
                found.append(Mistake(line, wrong, f"set it, as `{variable.name} = 0` if that is meant"))
        return found
