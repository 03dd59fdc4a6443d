"""Why a sheet is held: the first step that overflows, worked out in whole numbers outside the proved core.

First means what it means for the cause that the gate gives (document 02, Card 2): conjuncts in the file's order;
combinations of readings with the first atom slowest and the last fastest, readings as listed; within a
combination the first step in postfix.

The search goes depth first over the atoms. A step is worked as soon as the last of its atoms is chosen, once
for each choice of the atoms up to there, and the steps of the last atom for all its readings in one go. Before
it goes deeper it works the rest in ranges, from the lowest reading to the highest: where no range leaves its
type, nothing below overflows and all of it is passed over. Ranges may only say that; what overflows is found by
the plain steps.

A conjunct that passes at the gate by itself is not searched. What is found must have the gate's cause, and is
put to the gate again: the conjunct must hold a sheet with just those readings, for the same cause.
"""

from __future__ import annotations

import operator
from dataclasses import dataclass
from itertools import repeat
from typing import Callable, Dict, List, NamedTuple, Optional, Sequence, Set, Tuple

from .condition import CONSTANT, READING, SIGN, Atom, Condition, Conjunct, infix
from .library import Library
from .ranges import NO_DIVISOR, TOO_BIG, TYPES, cause_of, highest, immediate_value, lowest
from .recipe import Recipe
from .sheet import Sheet, packed
from .statements import Kind
from .trouble import Disagreement

LONGEST_EXPRESSION = 160
Tick = Callable[[int], None]


def quotient(a: int, b: int) -> int:
    """Division with the fraction dropped toward zero."""
    return abs(a) // abs(b) * (1 if (a < 0) == (b < 0) else -1)


def result(kind: int, a: int, b: int) -> Optional[int]:
    """An operation in whole numbers; nothing for a zero divisor."""
    if kind == Kind.CONVERT:
        return a
    if kind == Kind.DIVIDE:
        return quotient(a, b) if b else None
    return PLAIN[kind](a, b)


PLAIN = {Kind.ADD: operator.add, Kind.SUBTRACT: operator.sub, Kind.MULTIPLY: operator.mul}


class Taken(NamedTuple):
    """A reading that is part of a hold: the atom as it is shown, the field, and which reading it takes."""

    atom: str
    field: str
    value: int
    number: int
    of: int
    line: Optional[int]


@dataclass(frozen=True)
class Hold:
    """Why a sheet is held.

    `cause` is one of CAUSES. `conjunct` counts from 0. `left` and `right` are the operands of the step (`right`
    is None for a conversion), `result` its whole number (None for a zero divisor), `type` its type and `end` the
    end of that type which the result misses. `expression` is the step in the readings' names.
    """

    cause: str
    conjunct: int
    operation: str
    left: int
    right: Optional[int]
    result: Optional[int]
    type: str
    end: Optional[int]
    expression: str
    readings: Tuple[Taken, ...]

    def __str__(self) -> str:
        lines = ", ".join(_line_told(taken) for taken in self.readings)
        numbers = ", ".join(f"{taken.number} of {taken.atom}" for taken in self.readings if taken.line is not None)
        tail = f"conjunct {self.conjunct} at {self.step()}" + (f", readings {numbers}" if numbers else "")
        return "; ".join(part for part in (self.misses(), lines, tail) if part)

    def step(self) -> str:
        """The step with the values of its operands."""
        if self.right is None:
            return f"{self.left} to {self.type}"
        return f"{self.left} {self.operation} {self.right}"

    def misses(self) -> str:
        """The step and the end of its type that it misses."""
        text = self.expression if len(self.expression) <= LONGEST_EXPRESSION else self.step()
        if self.cause == NO_DIVISOR:
            return f"{text} divides by zero"
        side = "above" if self.cause == TOO_BIG else "below"
        return f"{text} = {self.result} is {side} {self.type}'s {self.end}"


def _line_told(taken: Taken) -> str:
    """Where a reading stands: its line, or its number."""
    if taken.line is None:
        return f"{taken.atom}: reading {taken.number} of {taken.of}"
    return f"{taken.atom}: line {taken.line}"


def why_held(
    recipe: Recipe, condition: Condition, sheet: Sheet, cause: str, library: Library, tick: Tick = lambda work: None
) -> Hold:
    """The first step that overflows, of a sheet that the gate holds for a cause; Disagreement where the two differ."""
    data = sheet.to_bytes()
    for number, conjunct in enumerate(condition.conjuncts):
        alone = library.check(condition.only(number), data)
        if alone is None:
            continue
        _same(cause, f"under conjunct {number} alone", alone)
        picks = Search(conjunct, sheet.columns, tick).first()
        if picks is None:
            told = f"conjunct {number} is held by the gate, and in whole numbers nothing overflows"
            raise Disagreement(f"{told}: one of the two is wrong")
        hold = _hold(recipe, number, conjunct, picks, sheet)
        _same(cause, "in whole numbers", hold.cause)
        again = library.check(condition.only(number), _only(conjunct, picks, sheet))
        _same(cause, f"under conjunct {number} with just those readings", again)
        return hold
    raise Disagreement("the gate holds the sheet, and passes it under each conjunct alone")


def _same(cause: str, where: str, found: Optional[str]) -> None:
    """Disagreement unless what is found is the gate's cause."""
    if found != cause:
        other = f"held {found}" if found else "pass"
        raise Disagreement(f"the gate answers held {cause}, and {where} it is {other}: one of the two is wrong")


def _only(conjunct: Conjunct, picks: Sequence[int], sheet: Sheet) -> bytes:
    """The sheet with just the readings that are picked, as listed, so that the first failure stays the first."""
    kept: List[Set[int]] = [set() for _ in sheet.columns]
    for atom, pick in zip(conjunct.atoms, picks):
        kept[atom.field].add(pick)
    return packed(sheet.types, [[column[pick] for pick in sorted(picked)] for column, picked in zip(sheet.columns, kept)])


# ---- the search


class Search:
    """The first combination of a conjunct's readings with which a step overflows."""

    def __init__(self, conjunct: Conjunct, columns: Sequence[Sequence[int]], tick: Tick) -> None:
        self.steps = conjunct.steps
        self.atoms = conjunct.atoms
        self.readings = [columns[atom.field] for atom in self.atoms]
        self.tick = tick
        self.ends = [(lowest(step.node.code), highest(step.node.code)) for step in self.steps]
        self.atom_at = [
            self.atoms.index(Atom(step.node.field, step.node.last)) if step.node.kind == READING else -1
            for step in self.steps
        ]
        self.level = self._levels()
        self.values = [immediate_value(s.node.code, s.node.last) if s.node.kind == CONSTANT else 0 for s in self.steps]
        self.due = [
            [p for p, s in enumerate(self.steps) if self.level[p] == level and s.node.kind >= Kind.ADD]
            for level in range(-1, len(self.atoms))
        ]

    def _levels(self) -> List[int]:
        """For each step the last atom that it depends on, -1 for none."""
        levels: List[int] = []
        for place, (_, left, right) in enumerate(self.steps):
            below = [levels[operand] for operand in (left, right) if operand >= 0]
            levels.append(max([self.atom_at[place]] + below))
        return levels

    def first(self) -> Optional[List[int]]:
        """For each atom the number of its reading, from 0; nothing where no step overflows."""
        if not self.worked(-1):
            return [0] * len(self.atoms)
        if not self.atoms or self.surely_passes(-1):
            return None
        picks = self.deeper(0)
        return picks and picks + [0] * (len(self.atoms) - len(picks))

    def deeper(self, level: int) -> Optional[List[int]]:
        """The readings from this atom on; shorter where the rest does not matter."""
        if level == len(self.atoms) - 1:
            return self.abreast(level)
        for pick, reading in enumerate(self.readings[level]):
            self.put(level, reading)
            if not self.worked(level):
                return [pick]
            if not self.surely_passes(level):
                rest = self.deeper(level + 1)
                if rest is not None:
                    return [pick] + rest
        return None

    def put(self, level: int, reading: int) -> None:
        """Gives an atom a reading."""
        for place, atom in enumerate(self.atom_at):
            if atom == level:
                self.values[place] = reading

    def worked(self, level: int) -> bool:
        """Works the steps whose last atom is this one; false at an overflow."""
        for place in self.due[level + 1]:
            node, left, right = self.steps[place]
            value = result(node.kind, self.values[left], self.values[right])
            if value is None or not self.ends[place][0] <= value <= self.ends[place][1]:
                return False
            self.values[place] = value
        return True

    def surely_passes(self, level: int) -> bool:
        """Whether no range of the steps after this atom leaves its type."""
        spans: List[Tuple[int, int]] = []
        for place, (node, left, right) in enumerate(self.steps):
            if self.level[place] <= level:
                span: Optional[Tuple[int, int]] = (self.values[place], self.values[place])
            elif node.kind == READING:
                readings = self.readings[self.atom_at[place]]
                span = (min(readings), max(readings))
            else:
                span = span_of(node.kind, spans[left], spans[right])
                if span is None or span[0] < self.ends[place][0] or span[1] > self.ends[place][1]:
                    return False
            spans.append(span)
        return True

    def abreast(self, level: int) -> Optional[List[int]]:
        """The first reading of the last atom with which a step overflows: each step for all of them at once."""
        readings = self.readings[level]
        count = len(readings)
        rows: Dict[int, Sequence[int]] = {p: readings for p, atom in enumerate(self.atom_at) if atom == level}
        for place in self.due[level + 1]:
            node, left, right = self.steps[place]
            a = rows[left] if left in rows else repeat(self.values[left], count)
            b = rows[right] if right in rows else repeat(self.values[right], count)
            row, whole = row_of(node.kind, a, b)
            low, high = self.ends[place]
            if not whole or min(row) < low or max(row) > high:
                count = next((k for k, value in enumerate(row) if not low <= value <= high), len(row))
                row = row[:count]
                if not count:
                    break
            rows[place] = row
        self.tick(len(self.due[level + 1]) * len(readings))
        return [count] if count < len(readings) else None


def row_of(kind: int, a: Sequence[int], b: Sequence[int]) -> Tuple[List[int], bool]:
    """An operation on operands side by side, up to the first zero divisor; whether there was none."""
    if kind == Kind.CONVERT:
        return list(a), True
    if kind != Kind.DIVIDE:
        return list(map(PLAIN[kind], a, b)), True
    row: List[int] = []
    for one, other in zip(a, b):
        if not other:
            return row, False
        row.append(quotient(one, other))
    return row, True


def span_of(kind: int, a: Tuple[int, int], b: Tuple[int, int]) -> Optional[Tuple[int, int]]:
    """The range of an operation on ranges; nothing where a divisor may be zero."""
    if kind == Kind.CONVERT:
        return a
    if kind == Kind.ADD:
        return a[0] + b[0], a[1] + b[1]
    if kind == Kind.SUBTRACT:
        return a[0] - b[1], a[1] - b[0]
    if kind == Kind.DIVIDE:
        if b[0] <= 0 <= b[1]:
            return None
        corners = [quotient(x, y) for x in a for y in b]
    else:
        corners = [x * y for x in a for y in b]
    return min(corners), max(corners)


# ---- the report


def _hold(recipe: Recipe, number: int, conjunct: Conjunct, picks: Sequence[int], sheet: Sheet) -> Hold:
    """The first step in postfix that overflows with these readings."""
    chosen = dict(zip(conjunct.atoms, picks))
    shown = conjunct.atom_names([part.name for part in recipe.fields])
    values: List[int] = []
    leaves: List[str] = []
    for place, (node, left, right) in enumerate(conjunct.steps):
        leaves.append("")
        if node.kind == READING:
            atom = Atom(node.field, node.last)
            values.append(sheet.columns[atom.field][chosen[atom]])
            leaves[place] = f"{shown[atom]}={values[place]}"
            continue
        if node.kind == CONSTANT:
            values.append(immediate_value(node.code, node.last))
            continue
        value = result(node.kind, values[left], values[right])
        cause = cause_of(node.code, value)
        if cause:
            taken = tuple(_taken(conjunct, place, chosen, shown, recipe, sheet))
            text = infix(conjunct.steps, place, leaves, False)
            converts = node.kind == Kind.CONVERT
            end = highest(node.code) if cause == TOO_BIG else lowest(node.code)
            return Hold(
                cause, number, "to" if converts else SIGN[node.kind], values[left], None if converts else values[right],
                value, TYPES[node.code], None if cause == NO_DIVISOR else end,
                f"{text} to {TYPES[node.code]}" if converts else text, taken,
            )
        values.append(value)
    raise Disagreement(f"conjunct {number}: the search named a combination in which nothing overflows")


def _taken(
    conjunct: Conjunct, place: int, chosen: Dict[Atom, int], shown: Dict[Atom, str], recipe: Recipe, sheet: Sheet
) -> List[Taken]:
    """The readings below a step, by first appearance."""
    below, todo = set(), [place]
    while todo:
        node, left, right = conjunct.steps[todo.pop()]
        if node.kind == READING:
            below.add(Atom(node.field, node.last))
        todo += [operand for operand in (left, right) if operand >= 0]
    return [
        Taken(
            shown[atom], recipe.fields[atom.field].name, sheet.columns[atom.field][chosen[atom]], chosen[atom] + 1,
            len(sheet.columns[atom.field]), sheet.lines[atom.field][chosen[atom]] if sheet.lines else None,
        )
        for atom in conjunct.atoms
        if atom in below
    ]
