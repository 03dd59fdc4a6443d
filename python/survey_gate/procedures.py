"""Procedures: refusal 16, and how long and how deep a recipe is with each call written out.

Nothing is written out for it: what a call comes to follows from the calls in its procedure, and these go to procedures
that stand above it. So a recipe is measured at once, however long it would be.
"""

from __future__ import annotations

from typing import Dict, List, NamedTuple, Optional, Sequence, Set

from .sizes import MOST_DEPTH, MOST_WRITTEN
from .statements import Kind, Named, Names, Procedure, Statement, named_variables, text_of
from .trouble import Refused, count

OPENINGS = {Kind.IF: "if", Kind.WHILE: "while", Kind.PROCEDURE: "procedure"}


class Extent(NamedTuple):
    """Statements written out: how many they are, and how deep they nest."""

    length: int
    depth: int


class Excess(NamedTuple):
    """A statement by which the written-out recipe gets too long or too deep: what is wrong, and what is allowed."""

    label: int
    wrong: str
    right: str


def check(statements: Sequence[Statement], procedures: Sequence[Procedure], names: Names) -> None:
    """Refusal 16, for statements that pass the checks before it."""
    start = _start(statements, procedures)
    bodies = _bodies(procedures, start)
    for number, procedure in enumerate(procedures):
        _owns_enough(procedure)
        _shares_none(procedure, procedures[:number], names["variable"])
    for number, (procedure, body) in enumerate(zip(procedures, bodies)):
        for label in body:
            _belongs(label, statements[label], number, procedures, names)
    for label in range(start, len(statements)):
        _spares(label, statements[label], procedures, names)
    excess = measured(statements, procedures)
    if excess:
        text = text_of(statements[excess.label], names, procedures)
        raise Refused(16, f"label {excess.label} ({text}): {excess.wrong}, and {excess.right}")


def start_of(statements: Sequence[Statement], procedures: Sequence[Procedure]) -> int:
    """The label after the procedures, of a recipe whose procedures stand before all other statements."""
    return closing(statements)[procedures[-1].label] + 1 if procedures else 0


def closing(statements: Sequence[Statement]) -> Dict[int, int]:
    """For the label of each opening that of its end, where blocks match."""
    found, opened = {}, []
    for label, statement in enumerate(statements):
        if statement.kind in OPENINGS:
            opened.append(label)
        elif statement.kind == Kind.END:
            found[opened.pop()] = label
    return found


def measured(statements: Sequence[Statement], procedures: Sequence[Procedure]) -> Optional[Excess]:
    """Where the recipe with each call written out gets too long or too deep, if it does."""
    start = start_of(statements, procedures)
    extents: List[Extent] = []
    for procedure, body in zip(procedures, _bodies(procedures, start)):
        inner = _extents(statements, body, extents)[-1]
        extents.append(Extent(procedure.count + inner.length + 1, inner.depth))
    along = _extents(statements, range(start, len(statements)), extents)
    for wrong, most, so_far in (
        (f"the recipe has {count(along[-1].length)} statements", MOST_WRITTEN, [extent.length for extent in along]),
        (f"blocks nest {along[-1].depth} deep", MOST_DEPTH, [extent.depth for extent in along]),
    ):
        if so_far[-1] > most:
            first = next(place for place, size in enumerate(so_far) if size > most)
            return Excess(start + first - 1, f"with each call written out {wrong}", f"at most {count(most)} are allowed")
    return None


def reached(statements: Sequence[Statement], procedures: Sequence[Procedure]) -> Set[int]:
    """The labels of the statements that a call or a run can come to: those after the procedures, and all that these call."""
    start = start_of(statements, procedures)
    bodies = _bodies(procedures, start)
    found = set(range(start, len(statements)))
    # Calls go upward, so that each body is looked at after all that may call it.
    for number in reversed(range(len(procedures))):
        if any(statements[label].kind == Kind.CALL and statements[label].b == number for label in found):
            found.update(bodies[number])
    return found


def _bodies(procedures: Sequence[Procedure], start: int) -> List[range]:
    """The labels between the opening and the end of each procedure, where each stands behind the one before."""
    stops = [procedure.label for procedure in procedures[1:]] + [start]
    return [range(procedure.label + 1, stop - 1) for procedure, stop in zip(procedures, stops)]


def _extents(statements: Sequence[Statement], labels: range, extents: Sequence[Extent]) -> List[Extent]:
    """What statements come to with each call written out, before the first and behind each, the procedures' being given."""
    found, depth = [Extent(0, 0)], 0
    for label in labels:
        statement = statements[label]
        called = extents[statement.b] if statement.kind == Kind.CALL else Extent(1, 0)
        depth += (statement.kind in OPENINGS) - (statement.kind == Kind.END)
        found.append(Extent(found[-1].length + called.length, max(found[-1].depth, depth + called.depth)))
    return found


# ---- the causes of 16 that are none of the written-out form


def _start(statements: Sequence[Statement], procedures: Sequence[Procedure]) -> int:
    """The label after the procedures; refused where one is late or inside another."""
    start, ends = 0, closing(statements)
    for procedure in procedures:
        if procedure.label != start:
            raise Refused(16, f"the procedure at label {procedure.label} {_misplaced(statements, ends, procedure.label, start)}")
        start = ends[start] + 1
    return start


def _misplaced(statements: Sequence[Statement], ends: Dict[int, int], label: int, start: int) -> str:
    """Where a procedure stands that does not stand behind the one before."""
    around = [opening for opening, end in ends.items() if opening < label < end]
    if around:
        return f"stands inside the {OPENINGS[statements[max(around)].kind]} that label {max(around)} opens"
    return f"stands below label {start}, and procedures come before all other statements"


def _owns_enough(procedure: Procedure) -> None:
    """It has an own variable, and no fewer than its parameters."""
    if not procedure.has_enough:
        own = f"{procedure.count or 'no'} own variable{'s' * (procedure.count != 1)}"
        told = f"{own}, and its result is one" if not procedure.count else f"{own}, and {procedure.parameters} parameters"
        raise Refused(16, f"{procedure.name} (label {procedure.label}) has {told}")


def _shares_none(procedure: Procedure, others: Sequence[Procedure], variables: Sequence[Named]) -> None:
    """It shares no variable with an earlier one."""
    for other in others:
        shared = [number for number in procedure.own if number in other.own]
        if shared:
            raise Refused(16, f"{other.name} (label {other.label}) and {procedure.name} (label {procedure.label}) share {variables[shared[0]].name}")


def _belongs(label: int, statement: Statement, number: int, procedures: Sequence[Procedure], names: Names) -> None:
    """A statement of a body uses the procedure's own variables only, and calls earlier ones only."""
    procedure = procedures[number]
    place = f"label {label} ({text_of(statement, names, procedures)})"
    for variable in named_variables(statement, procedures):
        if variable not in procedure.own:
            raise Refused(16, f"{place}: {names['variable'][variable].name} is no own variable of {procedure.name} (label {procedure.label})")
    if statement.kind == Kind.CALL and statement.b >= number:
        told = "itself" if statement.b == number else f"{procedures[statement.b].name}, which stands later"
        raise Refused(16, f"{place}: {procedure.name} calls {told}")


def _spares(label: int, statement: Statement, procedures: Sequence[Procedure], names: Names) -> None:
    """A statement outside procedures names none of their own variables."""
    for variable in named_variables(statement, procedures):
        for procedure in procedures:
            if variable in procedure.own:
                text = text_of(statement, names, procedures)
                told = f"{names['variable'][variable].name} is an own variable of {procedure.name} (label {procedure.label})"
                raise Refused(16, f"label {label} ({text}): {told}")
