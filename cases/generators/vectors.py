"""The outside vectors, rust/vectors: the sets in force, their cases numbered one after the other.

A set is a folder with the files of its cases, NNN.KIND, and ANSWERS.tsv, whose first line names the columns. An answer of the
gate on the recipe's own condition is empty where there is none; one of the conversion, where the case has the file."""
import os
from typing import List, NamedTuple

ROOT = os.path.dirname(os.path.dirname(os.path.dirname(os.path.abspath(__file__))))
VECTORS = os.path.join(ROOT, "rust", "vectors")
SETS = ("card-05",)
CAUSES = {"held above": "held too big", "held below": "held too small", "held divisor": "held no divisor"}


class Case(NamedTuple):
    """A case by its number over all sets, with its set, its number there and its answers.

    `made_up` is the gate's answer on the condition that comes with the case, `derived` its answer on the recipe's own, each in
    the words of the program gate; `convert` is the refusal of the old recipe, if any; `room` is the log's length in bytes."""

    number: str
    set: str
    own: str
    room: str
    derive: str
    made_up: str
    derived: str
    run: str
    convert: str

    def path(self, kind: str) -> str:
        """Where the case's file of a kind is."""
        return os.path.join(VECTORS, self.set, f"{self.own}.{kind}")

    def has(self, kind: str) -> bool:
        """Whether the case has a file of this kind."""
        return os.path.exists(self.path(kind))

    def has_notes(self) -> bool:
        """Whether the whole-number run was worked out: a log with records comes with notes."""
        return bool(self.content("whole")) or not self.content("log")

    def content(self, kind: str) -> bytes:
        """The bytes of the case's file of a kind."""
        with open(self.path(kind), "rb") as source:
            return source.read()


COLUMNS = ("case", "log length", "derive", "gate on .condition", "gate on .derived", "run", "convert .old")


def cases() -> List[Case]:
    """The cases of all sets."""
    found: List[Case] = []
    for name in SETS:
        with open(os.path.join(VECTORS, name, "ANSWERS.tsv"), encoding="utf-8") as answers:
            header, *rows = [line.rstrip("\n").split("\t") for line in answers]
        places = [header.index(column) for column in COLUMNS]
        for row in rows:
            answers = [CAUSES.get(row[at], row[at]) for at in places]
            found.append(Case(f"{len(found):03d}", name, *answers))
    return found
