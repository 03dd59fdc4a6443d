"""The part `running` of the program cases: runs of the outside vectors, and the cases beside them.

The ends, steps, records and refusals come from the vectors' answers, the records' bytes from the .log files, and the notes of
the cases whose derived condition passes from the .whole files: labels and numbers as noted, and no mark, since nothing in the
making of a value overflows there. The cases beside the vectors: a while that is always taken, one step a round, and a read."""
from typing import List, NamedTuple

from recipes import END, NUMBER, READ, U8, WHILE, recipe, s
from stored import RUNNING, ZERO_LIMIT, four
from vectors import Case


class Beside(NamedTuple):
    """A case beside the vectors: what it is there for, its files, what it asks, and the run's answer."""

    what: str
    recipe: bytes
    sheet: bytes
    choices: bytes
    asks: int
    answer: str


def beside() -> List[Beside]:
    """The cases beside the vectors, in order."""
    endless = recipe([], [U8], [s(NUMBER, immediate=1), s(WHILE), s(END)])
    reads = recipe([U8], [U8], [s(READ)])
    one_reading, blank = four(8) + four(1) + bytes([7]), four(8) + four(0)
    whole = "end 1 steps 10000 records 0"
    return [
        Beside("a while that never ends, under a choice file's limit of 0: stands for 10,000 steps",
               endless, b"", four(0), RUNNING, whole),
        Beside("the same with a choice file of no bytes: the missing limit counts as 0, and so as 10,000",
               endless, b"", b"", RUNNING, whole),
        Beside("the same with one byte of the limit, 3: the missing ones count as 0",
               endless, b"", bytes([3]), RUNNING, "end 1 steps 3 records 0"),
        Beside("the same with the limit handed to the library, where 0 is zero steps",
               endless, b"", four(0), RUNNING | ZERO_LIMIT, "end 1 steps 0 records 0"),
        Beside("a read whose only choice is an odd last byte: passed over, choices used up",
               reads, one_reading, four(100) + bytes([5]), RUNNING, "end 3 steps 0 records 0"),
        Beside("a read of a blank field, with a choice and no site: field without readings, since a run never gives 15",
               reads, blank, four(100) + bytes([5, 0]), RUNNING, "end 2 steps 0 records 0"),
    ]


def is_noted(case: Case) -> bool:
    """Whether the run's records are told as notes."""
    return case.run.startswith("end") and case.derived == "pass" and case.has_notes()


def lines(case: Case) -> List[str]:
    """What is said of a case."""
    said = [f"{case.number} {case.run}"]
    if case.run.startswith("end") and case.content("log"):
        said.append(f"{case.number} log {case.content('log').hex()}")
    for note in case.content("whole").decode().splitlines() if is_noted(case) else []:
        label, number, _ = note.split()
        said.append(f"{case.number} note {label} {number} mark 0")
    return said
