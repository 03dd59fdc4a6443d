"""What a statement is: its kinds, what each names in a, b and c, and its text.

This is the one place that knows the seventeen kinds; the readers of the text and of the file, the listing
and the search for a refusal's cause all go by OPERANDS. The two of procedures name more than a, b and c can:
a procedure its own variables, a call its arguments.
"""

from __future__ import annotations

from typing import Dict, List, NamedTuple, Optional, Sequence, Tuple

from .ranges import TYPES, immediate_value


class Kind:
    """The kinds of statements. ADD, SUBTRACT, MULTIPLY, DIVIDE and CONVERT are kinds of nodes as well."""

    NUMBER, COPY, ADD, SUBTRACT, MULTIPLY, DIVIDE, CONVERT, READ = range(8)
    LOAD, STORE, SITE, IF, ELSE, END, WHILE = range(8, 15)
    PROCEDURE, CALL = range(15, 17)


OPERATORS = {"+": Kind.ADD, "-": Kind.SUBTRACT, "*": Kind.MULTIPLY, "/": Kind.DIVIDE}
SIGNS = {kind: sign for sign, kind in OPERATORS.items()}

_VARIABLE: Tuple[Optional[str], ...] = ("variable", None, None)
_TWO = ("variable", "variable", None)
_THREE = ("variable", "variable", "variable")
OPERANDS: Dict[int, Tuple[Optional[str], ...]] = {
    Kind.NUMBER: _VARIABLE,
    Kind.COPY: _TWO,
    Kind.ADD: _THREE,
    Kind.SUBTRACT: _THREE,
    Kind.MULTIPLY: _THREE,
    Kind.DIVIDE: _THREE,
    Kind.CONVERT: _TWO,
    Kind.READ: ("variable", "field", None),
    Kind.LOAD: ("variable", "tray", "variable"),
    Kind.STORE: ("tray", "variable", "variable"),
    Kind.SITE: _VARIABLE,
    Kind.IF: _VARIABLE,
    Kind.ELSE: (None, None, None),
    Kind.END: (None, None, None),
    Kind.WHILE: _VARIABLE,
    Kind.PROCEDURE: (None, None, None),
    Kind.CALL: _VARIABLE,
}


class Statement(NamedTuple):
    """A statement as it lies in the file."""

    kind: int
    a: int = 0
    b: int = 0
    c: int = 0
    immediate: int = 0


class Named(NamedTuple):
    """A field, a variable or a tray; `cells` is 0 but for a tray, and `bits` but for a field."""

    name: str
    code: int
    cells: int = 0
    bits: int = 0


Names = Dict[str, List[Named]]


class Procedure(NamedTuple):
    """A procedure: its name, the label of its opening, how many parameters it has, its first own variable, how many it has."""

    name: str
    label: int
    parameters: int
    first: int
    count: int

    @property
    def own(self) -> range:
        """The numbers of its own variables: the parameters come first, the result is the last."""
        return range(self.first, self.first + self.count)

    @property
    def has_enough(self) -> bool:
        """Whether it has an own variable, and no fewer than its parameters."""
        return self.count >= max(self.parameters, 1)

    def header(self, variables: Sequence[Named], declares: bool = False) -> str:
        """Its opening as a line of text; it may declare its own variables."""
        own = [f"{part.name} {TYPES[part.code]}" if declares else part.name for part in variables[self.first : self.own.stop]]
        parameters, others = own[: self.parameters], own[self.parameters :]
        result = others.pop() if others else variables[self.own[-1]].name
        return " ".join(filter(None, (f"proc {self.name}({', '.join(parameters)})", ", ".join(others), f"-> {result}")))


def opened(statements: Sequence[Statement]) -> List[Procedure]:
    """The procedures by order of appearance, wherever they stand, with the names p0 onward."""
    found: List[Procedure] = []
    for label, statement in enumerate(statements):
        if statement.kind == Kind.PROCEDURE:
            found.append(Procedure(f"p{len(found)}", label, statement.a, statement.b, statement.c))
    return found


def arguments(call: Statement, procedures: Sequence[Procedure]) -> List[int]:
    """The variables that a call hands to the parameters of its procedure."""
    return list(call.immediate.to_bytes(4, "little")[: procedures[call.b].parameters])


def named_variables(statement: Statement, procedures: Sequence[Procedure]) -> List[int]:
    """The variables that a statement names; the opening of a procedure names none."""
    found = [number for what, number in zip(OPERANDS[statement.kind], statement[1:4]) if what == "variable"]
    return found + (arguments(statement, procedures) if statement.kind == Kind.CALL else [])


def agreeing(statement: Statement, names: Names) -> List[Named]:
    """What must be of one type in a statement: all it names, but for conversions, indices, sites, tests and calls."""
    kind = statement.kind
    if kind in (Kind.CONVERT, Kind.SITE, Kind.IF, Kind.WHILE, Kind.CALL):
        return []
    index = indexed_by(statement)
    return [
        names[what][number]
        for place, (what, number) in enumerate(zip(OPERANDS[kind], statement[1:4]))
        if what is not None and place != index
    ]


def indexed_by(statement: Statement) -> int:
    """Which of a, b, c is an index: 0, 1, 2, or -1 for none."""
    return {Kind.LOAD: 2, Kind.STORE: 1}.get(statement.kind, -1)


def text_of(statement: Statement, names: Names, procedures: Sequence[Procedure]) -> str:
    """The statement as a line of text; of a procedure's opening its header does."""
    kind = statement.kind
    if kind == Kind.CALL:
        target, *given = (names["variable"][number].name for number in named_variables(statement, procedures))
        return f"{target} = call {procedures[statement.b].name}({', '.join(given)})"
    a, b, c = (names[what][number].name if what else "" for what, number in zip(OPERANDS[kind], statement[1:4]))
    if kind == Kind.NUMBER:
        return f"{a} = {immediate_value(names['variable'][statement.a].code, statement.immediate)}"
    if kind in SIGNS:
        return f"{a} = {b} {SIGNS[kind]} {c}"
    return {
        Kind.COPY: f"{a} = {b}",
        Kind.CONVERT: f"{a} = to {b}",
        Kind.READ: f"{a} = read {b}",
        Kind.LOAD: f"{a} = {b}[{c}]",
        Kind.STORE: f"{a}[{b}] = {c}",
        Kind.SITE: f"site {a}",
        Kind.IF: f"if {a}",
        Kind.ELSE: "else",
        Kind.END: "end",
        Kind.WHILE: f"while {a}",
    }[kind]
