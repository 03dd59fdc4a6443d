"""The reader of a table of readings: CSV with a column for each field, all mistakes at once.

A column is a pool of readings: it ends at its first blank cell, and rows mean nothing. Columns are matched to
fields by name, in any order; a recipe's file has no names, and then they are taken in the order of its fields.
"""

from __future__ import annotations

import csv
import io
import re
from typing import List, NamedTuple, Optional

from .fields import beyond
from .files import lines_of
from .recipe import Recipe
from .sizes import LONGEST_ROW, MOST_DIGITS, MOST_MISTAKES, MOST_READINGS
from .trouble import Mistake, Mistakes, close_to, count, excerpt

SEPARATORS = ",;\t"
WHOLE = re.compile(r"[+-]?[0-9]+")


class Row(NamedTuple):
    """The cells of a row and the line that it starts in."""

    line: int
    cells: List[str]


class Table:
    """A table as it is read: for each field of the recipe its readings and their lines."""

    def __init__(self, recipe: Recipe, name: str) -> None:
        self.recipe = recipe
        self.name = name
        self.columns: List[List[int]] = [[] for _ in recipe.fields]
        self.lines: List[List[int]] = [[] for _ in recipe.fields]
        self.ended = [0] * len(recipe.fields)
        self.mistakes: List[Mistake] = []
        self.warnings: List[Mistake] = []

    def read(self, text: str) -> "Table":
        """The table of a text, or Mistakes."""
        rows = [row for row in self.rows(text) if any(cell.strip() for cell in row.cells)]
        if not self.recipe.fields:
            if rows:
                self.note(rows[0].line, "the recipe has no fields", "its sheet is empty")
        elif not rows:
            self.note(1, "there is no line of names", f"the first line names the fields: {self.field_names()}")
        else:
            order = self.matched(rows[0])
            for row in rows[1:] if order else []:
                self.take(row, order, len(rows[0].cells))
                if len(self.mistakes) >= MOST_MISTAKES:
                    self.note(row.line, f"over {count(MOST_MISTAKES)} mistakes", "the lines below are not read")
                    break
        if self.mistakes:
            raise Mistakes(self.name, sorted(self.mistakes))
        self.warn_of_blanks(rows[0].line if rows else 1)
        return self

    def warn_of_blanks(self, line: int) -> None:
        """Warns of the fields without readings; whether a conjunct reads them is not known here."""
        word = "column" if self.recipe.named else "field"
        for part, readings in zip(self.recipe.fields, self.columns):
            if not readings:
                right = f"the gate refuses the sheet with 15 if a conjunct reads {part.name}, and a run that reads it ends there"
                self.warnings.append(Mistake(line, f"the {word} {part.name} is blank", right))

    def note(self, line: int, wrong: str, right: str) -> None:
        """Notes a mistake."""
        self.mistakes.append(Mistake(line, wrong, right))

    def field_names(self) -> str:
        """The names of the recipe's fields, for a message."""
        return ", ".join(part.name for part in self.recipe.fields)

    def rows(self, text: str) -> List[Row]:
        """The rows by the csv module; what it cannot take apart is a mistake."""
        kept = []
        for number, line in enumerate(lines_of(text), 1):
            if len(line) > LONGEST_ROW:
                self.note(number, f"the line has {count(len(line))} characters", f"a line has at most {count(LONGEST_ROW)}")
            kept.append(line if len(line) <= LONGEST_ROW else "")
        text = "\n".join(kept)
        reader = csv.reader(io.StringIO(text, newline=""), delimiter=_separator(text), strict=True)
        rows, line = [], 1
        try:
            for cells in reader:
                rows.append(Row(line, cells))
                line = reader.line_num + 1
        except csv.Error as error:
            self.note(line, f"the line is no CSV ({error})", "a quote opens and closes a cell")
        return rows

    # -- the line of names

    def matched(self, header: Row) -> Optional[List[Optional[int]]]:
        """For each column the number of its field; nothing where the columns do not serve."""
        names = [cell.strip() for cell in header.cells]
        wanted = [part.name for part in self.recipe.fields]
        if not self.recipe.named and set(names) != set(wanted):
            return self.by_order(header.line, names)
        before = len(self.mistakes)
        order = [self.field_of(header.line, name, names[:place]) for place, name in enumerate(names)]
        for number, name in enumerate(wanted):
            if number not in order:
                self.note(header.line, f"there is no column {name}", f"the fields are {self.field_names()}")
        return order if len(self.mistakes) == before else self.partly(order)

    def partly(self, order: List[Optional[int]]) -> Optional[List[Optional[int]]]:
        """The columns that are known, so that their cells are looked at too."""
        return order if any(number is not None for number in order) else None

    def by_order(self, line: int, names: List[str]) -> Optional[List[Optional[int]]]:
        """The columns in their order, for a recipe without names."""
        fields = len(self.recipe.fields)
        if len(names) != fields:
            self.note(line, f"{len(names)} columns", f"the recipe has {fields} fields")
            return None
        told = "give the recipe's text to have them matched by name"
        self.warnings.append(Mistake(line, "the recipe's file has no names, so the columns are taken in their order", told))
        return list(range(fields))

    def field_of(self, line: int, name: str, before: List[str]) -> Optional[int]:
        """The number of the field that a column is named after; nothing, and a mistake, where there is none."""
        wanted = [part.name for part in self.recipe.fields]
        if name not in wanted:
            if not name:
                self.note(line, f"column {len(before) + 1} has no name", f"the fields are {self.field_names()}")
                return None
            near = close_to(name, wanted)
            right = f"did you mean '{near[0]}'?" if near else f"the fields are {self.field_names()}"
            self.note(line, f"{excerpt(name)} is no field of the recipe", right)
            return None
        if name in before:
            self.note(line, f"{name} has two columns", "put its readings into one")
            return None
        return wanted.index(name)

    # -- the rows below

    def take(self, row: Row, order: List[Optional[int]], columns: int) -> None:
        """Takes the cells of a row."""
        if len(row.cells) != columns:
            right = f"the first line names {columns}; a cell without a reading is blank"
            self.note(row.line, f"{len(row.cells)} cells", right)
            return
        for cell, number in zip(row.cells, order):
            if number is not None:
                self.take_cell(row.line, cell.strip(), number)

    def take_cell(self, line: int, cell: str, number: int) -> None:
        """Takes a cell into its field's readings."""
        part = self.recipe.fields[number]
        if not cell:
            self.ended[number] = self.ended[number] or line
            return
        if self.ended[number]:
            right = "move the readings up, or fill the cell"
            self.note(line, f"{part.name} has a reading below its blank cell in line {self.ended[number]}", right)
            self.ended[number] = 0
        value = self.value(line, cell, part.name)
        if value is None:
            return
        told = beyond(part, value)
        if told:
            self.note(line, f"{value} under {part.name} does not fit {told[0]}", told[1])
        if len(self.columns[number]) == MOST_READINGS:
            self.note(line, f"this is reading {MOST_READINGS + 1} of {part.name}", f"a field has at most {MOST_READINGS}")
        self.columns[number].append(value)
        self.lines[number].append(line)

    def value(self, line: int, cell: str, name: str) -> Optional[int]:
        """The whole number in a cell, or a mistake."""
        if WHOLE.fullmatch(cell):
            if len(cell.lstrip("+-0")) <= MOST_DIGITS:
                return int(cell)
            self.note(line, f"a number of {count(len(cell))} digits under {name}", f"no type has more than {MOST_DIGITS}")
            return None
        self.note(line, f"{excerpt(cell)} under {name} is no whole number", _right_number(cell))
        return None


def _separator(text: str) -> str:
    """What parts the cells: of , ; and tab the one that the line of names has most of."""
    first = next((line for line in lines_of(text) if line.strip()), "")
    bare = re.sub(r'"[^"]*"', "", first)
    return max(SEPARATORS, key=bare.count)


def _right_number(cell: str) -> str:
    """What would be right in the place of a cell that is no whole number."""
    if any(character.isdecimal() and not "0" <= character <= "9" for character in cell):
        return "digits are 0 to 9"
    if re.fullmatch(r"[+-]?0[xX][0-9a-fA-F]{1,16}", cell):
        return f"numbers are decimal: write {int(cell, 16)}"
    if re.fullmatch(r"[+-]?[0-9]{1,3}([_' \u00a0,.][0-9]{3})+", cell):
        return f"write {int(re.sub(r'[^-+0-9]', '', cell))}"
    if re.fullmatch(r"[+-]?[0-9]*[.,][0-9]*", cell):
        return "readings are whole: scale the field, as millimetres for metres"
    return "a cell is a whole number or blank"
