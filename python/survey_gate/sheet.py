"""A sheet: for each field of a recipe its readings, from a table or a file and back to either."""

from __future__ import annotations

import struct
from dataclasses import dataclass, field
from typing import List, Optional, Sequence

from . import files
from .fields import beyond
from .ranges import from_bytes, to_bytes, width
from .recipe import Recipe
from .sizes import LONGEST_TEXT, MOST_FIELDS, MOST_READINGS
from .statements import Named
from .trouble import Mistake, Refused, Trouble, count, shown

PAIR = 8


@dataclass
class Sheet:
    """A sheet.

    `columns` has the readings of each field, in the recipe's order; from a table, `lines` has the line of
    each. `warnings` say what is allowed and seldom meant.
    """

    types: List[int]
    columns: List[List[int]]
    lines: Optional[List[List[int]]] = None
    warnings: List[Mistake] = field(default_factory=list)

    @classmethod
    def from_csv(cls, text: str, recipe: Recipe, name: str = "table") -> "Sheet":
        """The sheet of a table (docs/RECIPES.md); raises Mistakes with every wrong line. `name` is for messages."""
        from .table import Table

        table = Table(recipe, name).read(text)
        return cls(recipe.types, table.columns, table.lines, table.warnings)

    @classmethod
    def from_bytes(cls, data: bytes, recipe: Recipe) -> "Sheet":
        """The sheet of a file; raises Refused with 13 and the first field whose pair is wrong, or reading beyond its bits."""
        return cls(recipe.types, readings_of(data, recipe.fields))

    @classmethod
    def read(cls, path: str, recipe: Recipe) -> "Sheet":
        """The sheet at a path, in either form."""
        return cls.from_either(files.read(path, LONGEST_TEXT), recipe, path)

    @classmethod
    def from_either(cls, data: bytes, recipe: Recipe, name: str) -> "Sheet":
        """The sheet of a file's content, in either form: a sheet's file begins with the length of its table."""
        if looks_packed(data) or (not data and not recipe.fields):
            return cls.from_bytes(data, recipe)
        if not data.strip():
            raise Trouble(f"{shown(name)}: empty; the first line of a table names the fields")
        if b"\0" in data and data[:2] not in files.UTF_16_MARKS:
            try:
                return cls.from_bytes(data, recipe)
            except Refused as refused:
                raise Trouble(f"{shown(name)}: no table of readings, for its zero bytes, and no sheet's file: {refused.place}") from None
        text, _ = files.decoded(data, name)
        return cls.from_csv(text, recipe, name)

    def to_bytes(self) -> bytes:
        """The sheet's file."""
        return packed(self.types, self.columns)

    def to_csv(self, recipe: Recipe) -> str:
        """The sheet as a table. Reading it gives the same file."""
        if not self.columns:
            return ""
        rows = [",".join(part.name for part in recipe.fields)]
        for k in range(max(len(column) for column in self.columns)):
            rows.append(",".join(str(column[k]) if k < len(column) else "" for column in self.columns))
        return "\n".join(rows) + "\n"


def looks_packed(data: bytes) -> bool:
    """Whether this may be a sheet's file, of this recipe or another: its first offset is 8 for each field."""
    first = int.from_bytes(data[:4], "little")
    return len(data) >= PAIR and first % PAIR == 0 and PAIR <= first <= PAIR * MOST_FIELDS


def packed(types: Sequence[int], columns: Sequence[Sequence[int]]) -> bytes:
    """The file of these readings."""
    table, body, at = b"", b"", PAIR * len(types)
    for code, column in zip(types, columns):
        part = to_bytes(code, column)
        table += struct.pack("<II", at, len(part))
        body += part
        at += len(part)
    return table + body


def readings_of(data: bytes, fields: Sequence[Named]) -> List[List[int]]:
    """The readings of a file, or Refused with 13.

    Its place is the first field whose pair is wrong, or that the file goes on, or the first reading beyond its bits.
    """
    columns = _columns(data, fields)
    for part, column in zip(fields, columns):
        for number, value in enumerate(column, 1):
            told = beyond(part, value)
            if told:
                raise Refused(13, f"reading {number} of {part.name} is {value}, and {told[1]}")
    return columns


def refusal(data: bytes, fields: Sequence[Named]) -> Optional[Refused]:
    """What a file is refused with for these fields; nothing where it is right."""
    try:
        readings_of(data, fields)
    except Refused as refused:
        return refused
    return None


def _columns(data: bytes, fields: Sequence[Named]) -> List[List[int]]:
    """The readings of a file, within their types."""
    at, columns = PAIR * len(fields), []
    if len(data) < at:
        raise Refused(13, f"{fields[0].name}'s readings are to start at byte {at}, behind the table, and the file ends at {len(data)}")
    for number, part in enumerate(fields):
        code, name = part.code, part.name
        offset, length = struct.unpack_from("<II", data, PAIR * number)
        if offset != at:
            raise Refused(13, f"{name}'s readings start at byte {offset} by the table, and at {at} by what is before")
        if length % width(code):
            raise Refused(13, f"{name}'s readings take {length} bytes, no multiple of {width(code)}")
        if length > MOST_READINGS * width(code):
            raise Refused(13, f"{name} has {count(length // width(code))} readings, and a field has at most {MOST_READINGS}")
        if at + length > len(data):
            raise Refused(13, f"{name}'s readings end at byte {at + length}, and the file at {len(data)}")
        columns.append(from_bytes(code, data[at : at + length]))
        at += length
    if at != len(data):
        raise Refused(13, f"the readings end at byte {at}, and the file at {count(len(data))}")
    return columns
