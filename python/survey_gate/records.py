"""Choice files and logs: what goes into a run and what comes out of it."""

from __future__ import annotations

import struct
from typing import List, NamedTuple, Sequence, Tuple

from .ranges import is_signed
from .recipe import Recipe
from .sizes import HIGHEST_CHOICE, HIGHEST_LIMIT, RECORD_BYTES, USUAL_LIMIT
from .statements import Kind
from .trouble import Trouble

LIMIT_BYTES = 4
ENDS = ("finished", "step limit", "field without readings", "choices used up", "log full")


class Record(NamedTuple):
    """A critical site that a run reached: its label, its variable, the value, and whether it overflowed."""

    label: int
    variable: str
    value: int
    overflowed: bool

    def __str__(self) -> str:
        return f"label {self.label}: {self.variable} = {self.value}{' OVERFLOWED' if self.overflowed else ''}"


def records_of(log: bytes, recipe: Recipe, name: str = "the log") -> List[Record]:
    """The records of a log; Trouble where it is not this recipe's."""
    if len(log) % RECORD_BYTES:
        raise Trouble(f"{name}: {len(log)} bytes, and a log is made of records of {RECORD_BYTES}")
    records = []
    for at in range(0, len(log), RECORD_BYTES):
        label, mark, zero, word = struct.unpack_from("<HBBQ", log, at)
        number = at // RECORD_BYTES
        if label >= len(recipe.statements) or recipe.statements[label].kind != Kind.SITE:
            raise Trouble(f"{name}: record {number} names label {label}, which is no site of the recipe")
        if mark > 1 or zero:
            raise Trouble(f"{name}: record {number} is damaged: its mark is {mark} and its zero byte {zero}")
        variable = recipe.variables[recipe.statements[label].a]
        value = word - (1 << 64) if is_signed(variable.code) and word >> 63 else word
        records.append(Record(label, variable.name, value, bool(mark)))
    return records


def choice_bytes(choices: Sequence[int]) -> bytes:
    """Choices as the library takes them; Trouble where one is out of range."""
    for choice in choices:
        if not 0 <= choice <= HIGHEST_CHOICE:
            raise Trouble(f"the choice {choice} is out of range; a choice is 0 to {HIGHEST_CHOICE}")
    return struct.pack(f"<{len(choices)}H", *choices)


def choice_file(limit: int, choices: Sequence[int]) -> bytes:
    """A choice file: the step limit, then the number of the reading that each read takes."""
    if not 0 <= limit <= HIGHEST_LIMIT:
        raise Trouble(f"the limit {limit} is out of range; a limit is 0 to {HIGHEST_LIMIT}")
    return struct.pack("<I", limit) + choice_bytes(choices)


def from_choice_file(data: bytes) -> Tuple[int, bytes]:
    """The limit and the choices of a file: 0 means 10,000, missing bytes of the limit are 0."""
    limit = int.from_bytes(data[:LIMIT_BYTES], "little")
    return limit or USUAL_LIMIT, data[LIMIT_BYTES:]
