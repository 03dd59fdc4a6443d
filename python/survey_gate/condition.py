"""A condition: the conjuncts over the readings that must not overflow at any step.

A conjunct is a list of nodes in postfix. Its atoms are the readings f<n>, in the order of their first
appearance; the gate tries every combination of their fields' readings.
"""

from __future__ import annotations

import struct
from collections import Counter
from dataclasses import dataclass
from functools import cached_property
from typing import Dict, List, NamedTuple, Optional, Sequence, Tuple

from . import fields as entries
from .ranges import TYPES, fits, immediate_value
from .recipe import Recipe
from .sizes import FIELD_BYTES, MOST_COMBINATIONS, MOST_CONJUNCTS, MOST_FIELDS, MOST_NODES, NODE_BYTES
from .statements import Kind, Named
from .trouble import Refused, count

HEAD = 8
PAIR = 8
CONSTANT, READING = 0, 1
RAW = {Kind.ADD: "add", Kind.SUBTRACT: "sub", Kind.MULTIPLY: "mul", Kind.DIVIDE: "div", Kind.CONVERT: "to"}
SIGN = {Kind.ADD: "+", Kind.SUBTRACT: "-", Kind.MULTIPLY: "×", Kind.DIVIDE: "/"}
HIGHEST_KIND = Kind.CONVERT
LONGEST_PRODUCT = 10**15


class Node(NamedTuple):
    """A node as it lies in the file."""

    kind: int
    code: int
    field: int
    last: int

    def raw(self) -> str:
        """The node as document 01's listing prints it."""
        if self.kind == CONSTANT:
            head = str(immediate_value(self.code, self.last))
        elif self.kind == READING:
            head = f"f{self.field}<{self.last}>"
        else:
            head = RAW[self.kind]
        return f"{head}:{TYPES[self.code]}"


class Atom(NamedTuple):
    """The n-th read of a field that a conjunct speaks of."""

    field: int
    n: int


class Step(NamedTuple):
    """A node with the places of its operands among the nodes (-1 for none)."""

    node: Node
    left: int
    right: int


class Conjunct:
    """One expression, in postfix."""

    def __init__(self, nodes: Sequence[Node]) -> None:
        self.nodes = list(nodes)

    @cached_property
    def atoms(self) -> List[Atom]:
        """The atoms by first appearance."""
        return list(dict.fromkeys(Atom(node.field, node.last) for node in self.nodes if node.kind == READING))

    @cached_property
    def steps(self) -> List[Step]:
        """The nodes with their operands."""
        steps, stack = [], []
        for place, node in enumerate(self.nodes):
            right = stack.pop() if node.kind in SIGN else -1
            left = stack.pop() if node.kind >= Kind.ADD else -1
            steps.append(Step(node, left, right))
            stack.append(place)
        return steps

    def combinations(self, columns: Sequence[Sequence[int]]) -> int:
        """How many combinations of readings the gate tries."""
        product = 1
        for atom in self.atoms:
            product *= len(columns[atom.field])
        return product

    def raw(self) -> str:
        """The nodes as document 01's listing prints them."""
        return " ".join(node.raw() for node in self.nodes)

    def atom_names(self, names: Sequence[str]) -> Dict[Atom, str]:
        """A name for each atom: the field's, with <n> where the conjunct reads the field more than once."""
        fields = [atom.field for atom in self.atoms]
        return {
            atom: names[atom.field] + (f"<{atom.n}>" if fields.count(atom.field) > 1 else "") for atom in self.atoms
        }

    def infix(self, names: Sequence[str]) -> str:
        """The conjunct in infix, conversions written as `u32(x)`."""
        atoms = self.atom_names(names)
        leaves = [atoms[Atom(node.field, node.last)] if node.kind == READING else "" for node in self.nodes]
        return infix(self.steps, len(self.steps) - 1, leaves, True)


def infix(steps: Sequence[Step], place: int, leaves: Sequence[str], conversions: bool) -> str:
    """The step at this place in infix. `leaves` names the readings; conversions are shown or passed over."""
    return _infix(steps, place, leaves, conversions)[0]


def _infix(steps: Sequence[Step], place: int, leaves: Sequence[str], conversions: bool) -> Tuple[str, int]:
    """The text and how tightly it binds: 1 sums, 2 products, 3 the rest."""
    node, left, right = steps[place]
    if node.kind == CONSTANT:
        value = immediate_value(node.code, node.last)
        return str(value), 3 if value >= 0 else 1
    if node.kind == READING:
        return leaves[place], 3
    text, binds = _infix(steps, left, leaves, conversions)
    if node.kind == Kind.CONVERT:
        return (f"{TYPES[node.code]}({text})", 3) if conversions else (text, binds)
    other, other_binds = _infix(steps, right, leaves, conversions)
    own = 1 if node.kind in (Kind.ADD, Kind.SUBTRACT) else 2
    text = f"({text})" if binds < own else text
    other = f"({other})" if other_binds <= own else other
    return f"{text} {SIGN[node.kind]} {other}", own


@dataclass
class Condition:
    """A condition: its file, the recipe's fields by the names f0 onward, and the conjuncts in the file's order."""

    data: bytes
    fields: List[Named]
    conjuncts: List[Conjunct]

    @classmethod
    def of(cls, recipe: Recipe) -> "Condition":
        """The recipe's condition, derived by the proved library; raises Refused with 9, 10 or 11."""
        from .library import load

        return cls.from_bytes(load().derive(recipe.to_bytes()))

    @classmethod
    def from_bytes(cls, data: bytes) -> "Condition":
        """The condition of a file; raises Refused with 12 and the place."""
        fields, parts = _parts(data)
        types = [part.code for part in fields]
        conjuncts = [Conjunct(_nodes(part, types, number)) for number, part in enumerate(parts)]
        for number in range(1, len(parts)):
            before, here = parts[number - 1], parts[number]
            if (len(before), before) >= (len(here), here):
                raise Refused(12, f"conjunct {number} is out of order, or stands twice")
        return cls(bytes(data), fields, conjuncts)

    def raw(self) -> str:
        """The listing as document 01 prints it."""
        lines = [f"conjuncts {len(self.conjuncts)}"]
        lines += [f"{number}: {conjunct.raw()}" for number, conjunct in enumerate(self.conjuncts)]
        return "\n".join(lines) + "\n"

    def only(self, number: int) -> bytes:
        """The file of the condition that has this conjunct alone."""
        nodes = b"".join(struct.pack("<BBHI", *node) for node in self.conjuncts[number].nodes)
        head = struct.pack("<II", 1, len(self.fields)) + entries.packed(self.fields)
        return head + struct.pack("<II", len(head) + PAIR, len(nodes)) + nodes

    def work(self, columns: Sequence[Sequence[int]]) -> int:
        """How many nodes the gate works at most on these readings."""
        return sum(len(part.nodes) * part.combinations(columns) for part in self.conjuncts)

    def refusal(self, columns: Sequence[Sequence[int]], names: Sequence[str], word: str = "field") -> Optional[Refused]:
        """What the gate refuses these readings with, and the place: 15, else 14. `word` is column for a table, else field."""
        readers = self.first_readers()
        blank = [field for field in sorted(readers) if not columns[field]]
        if blank:
            told = (f"the {word} {names[field]} is blank, and conjunct {readers[field]} reads {names[field]}" for field in blank)
            return Refused(15, "; ".join(told))
        place = self.too_many(columns, names)
        return Refused(14, place) if place else None

    def first_readers(self) -> Dict[int, int]:
        """For each field that some conjunct reads, the first one that does."""
        readers: Dict[int, int] = {}
        for number, conjunct in enumerate(self.conjuncts):
            for atom in conjunct.atoms:
                readers.setdefault(atom.field, number)
        return readers

    def too_many(self, columns: Sequence[Sequence[int]], names: Sequence[str]) -> str:
        """The place of refusal 14: the first conjunct with too many combinations; nothing where there is none."""
        for number, conjunct in enumerate(self.conjuncts):
            product = conjunct.combinations(columns)
            if product > MOST_COMBINATIONS:
                times = Counter(atom.field for atom in conjunct.atoms)
                told = ", ".join(
                    f"{names[field]} {_times(reads)} (of {len(columns[field])})" for field, reads in times.items()
                )
                return f"conjunct {number} reads {told}: {_product(product)} combinations"
        return ""


def _times(reads: int) -> str:
    """How often a conjunct reads a field."""
    return "once" if reads == 1 else f"{reads} times"


def _product(product: int) -> str:
    """A number of combinations, a very long one by its length."""
    return count(product) if product < LONGEST_PRODUCT else f"over 10^{len(str(product)) - 1}"


def _parts(data: bytes) -> Tuple[List[Named], List[bytes]]:
    """The fields and the conjuncts' bytes, or refusal 12."""
    if len(data) < HEAD:
        raise Refused(12, f"it has {len(data)} bytes, and the head takes {HEAD}")
    conjuncts, fields = struct.unpack_from("<II", data)
    if conjuncts > MOST_CONJUNCTS or fields > MOST_FIELDS:
        raise Refused(12, f"its head says {count(conjuncts)} conjuncts and {count(fields)} fields")
    table = HEAD + FIELD_BYTES * fields
    at = table + PAIR * conjuncts
    if len(data) < at:
        raise Refused(12, f"it has {len(data)} bytes, and its table ends at byte {at}")
    for number in range(fields):
        wrong = entries.wrong(data[HEAD + FIELD_BYTES * number :][:FIELD_BYTES])
        if wrong:
            raise Refused(12, f"field {number} {wrong}")
    parts = []
    for number in range(conjuncts):
        offset, length = struct.unpack_from("<II", data, table + PAIR * number)
        if offset != at or at + length > len(data):
            raise Refused(12, f"the table's entry for conjunct {number} is wrong: it starts at byte {at}")
        if length % NODE_BYTES or not NODE_BYTES <= length <= NODE_BYTES * MOST_NODES:
            raise Refused(12, f"conjunct {number} has {length} bytes, and a conjunct is 1 to {MOST_NODES} nodes of 8")
        parts.append(data[at : at + length])
        at += length
    if at != len(data):
        raise Refused(12, f"the conjuncts end at byte {at}, and the file at {count(len(data))}")
    return entries.unpacked(data[HEAD:table]), parts


def _nodes(part: bytes, types: Sequence[int], number: int) -> List[Node]:
    """The nodes of a conjunct, or refusal 12."""
    nodes = [Node(*struct.unpack_from("<BBHI", part, at)) for at in range(0, len(part), NODE_BYTES)]
    stack: List[int] = []
    last = [0] * len(types)
    for place, node in enumerate(nodes):
        wrong = _wrong(node, types, last, stack)
        if wrong:
            raise Refused(12, f"conjunct {number}, node {place}: {wrong}")
        taken = {CONSTANT: 0, READING: 0, Kind.CONVERT: 1}.get(node.kind, 2)
        del stack[len(stack) - taken :]
        stack.append(node.code)
    if len(stack) != 1:
        raise Refused(12, f"conjunct {number} is no one whole expression")
    return nodes


def _wrong(node: Node, types: Sequence[int], last: List[int], stack: Sequence[int]) -> str:
    """What is wrong with a node behind these operands' types; counts its reading in `last`."""
    if node.kind > HIGHEST_KIND or node.code >= len(TYPES):
        return f"it has kind {node.kind} and type code {node.code}"
    if node.kind == CONSTANT:
        if node.field:
            return "an unused part is not zero"
        return "" if fits(node.code, immediate_value(node.code, node.last)) else "a constant does not fit its type"
    if node.kind == READING:
        if node.field >= len(types) or types[node.field] != node.code:
            return f"it reads field {node.field} as {TYPES[node.code]}, and there is none of that type"
        if not 1 <= node.last <= last[node.field] + 1:
            return f"reading {node.last} of field {node.field} comes before reading {last[node.field] + 1}"
        last[node.field] = max(last[node.field], node.last)
        return ""
    if node.field or node.last:
        return "an unused part is not zero"
    if node.kind == Kind.CONVERT:
        return "" if stack else "it has no operand"
    if len(stack) < 2:
        return "it has no two operands"
    return "" if set(stack[-2:]) == {node.code} else "types disagree"
