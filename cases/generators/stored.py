"""The stored files of a program: CRATE/data and CRATE/stdout, written afresh."""
import os
import shutil
from typing import Iterable

from vectors import Case

# What a case asks, as the bits of a byte; crates/cases/src/stored.rt says what each is.
READING, ANALYSING, MADE_UP, DERIVED, CONVERTING, RUNNING, NOTES, ZERO_LIMIT = (1 << place for place in range(8))


def four(n: int) -> bytes:
    """A number in 4 bytes, lowest first."""
    return n.to_bytes(4, "little")


class Stored:
    """A program's data and the lines that it is to print."""

    def __init__(self, crate: str) -> None:
        self.crate, self.data, self.lines = crate, os.path.join(crate, "data"), []
        shutil.rmtree(self.data, ignore_errors=True)
        os.makedirs(self.data)

    def put(self, number: str, kind: str, content: bytes) -> None:
        """A file of a case."""
        with open(os.path.join(self.data, f"{number}.{kind}"), "wb") as out:
            out.write(content)

    def copy(self, case: Case, *kinds: str) -> None:
        """Files of an outside case, as they are."""
        for kind in kinds:
            self.put(case.number, kind, case.content(kind))

    def ask(self, number: str, room: int, asks: int) -> None:
        """What a case asks, and the length of the log that its run is lent."""
        self.put(number, "case", four(room) + bytes([asks]))

    def say(self, lines: Iterable[str]) -> None:
        """Lines that the program is to print."""
        self.lines.extend(lines)

    def write_stdout(self) -> None:
        """All the lines."""
        with open(os.path.join(self.crate, "stdout"), "w", encoding="utf-8") as out:
            out.write("".join(line + "\n" for line in self.lines))
