"""What the reader of a recipe's text knows of names, and how a line says that it is wrong."""

from __future__ import annotations

from typing import NamedTuple, Optional


class Known(NamedTuple):
    """A declared name: what it names, its number and its type; no type where its declaration is wrong.

    A procedure has type 0.
    """

    what: str
    number: int
    code: Optional[int]


class Scope(NamedTuple):
    """The procedure whose body is being read: its name, the line that opens it, and whether that line is right."""

    name: str
    line: int
    right: bool


class Wrong(Exception):
    """The line that is being read is wrong."""

    def __init__(self, wrong: str, right: str) -> None:
        super().__init__(wrong)
        self.wrong, self.right = wrong, right
