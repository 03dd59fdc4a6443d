#!/usr/bin/env python3
"""cases.py CRATE: writes CRATE/data and CRATE/stdout of the program cases from the outside vectors and the cases beside them.

The vectors come first, then the cases of the gate, of the run, of procedures, of narrow fields and of conversions; no number has
two cases."""
import sys
from typing import List, Sequence, Tuple, TypeVar

import analysing
import calling
import converting
import filtering
import narrowing
import reading
import running
from recipes import Worked
from stored import ANALYSING, CONVERTING, DERIVED, MADE_UP, NOTES, READING, RUNNING, Stored
from vectors import Case
from vectors import cases as vectors

One = TypeVar("One")


def asks(case: Case) -> int:
    """What a case of the vectors asks."""
    questions = (
        (READING | ANALYSING | RUNNING | CONVERTING, True),
        (MADE_UP, case.made_up),
        (DERIVED, case.derived),
        (NOTES, running.is_noted(case)),
    )
    return sum(bits for bits, is_asked in questions if is_asked)


def numbered(found: Sequence[One], *before: Sequence[object]) -> List[Tuple[str, One]]:
    """Cases with their numbers, behind the vectors and those before."""
    first = len(vectors()) + sum(map(len, before))
    return [(f"{number:03d}", one) for number, one in enumerate(found, first)]


def gate_cases() -> List[Tuple[str, filtering.Beside]]:
    """The cases of the gate beside the vectors, with their numbers."""
    return numbered(filtering.beside())


def run_cases() -> List[Tuple[str, running.Beside]]:
    """The cases of the run beside the vectors, with their numbers."""
    return numbered(running.beside(), gate_cases())


def calling_cases() -> List[Tuple[str, Worked]]:
    """The cases of procedures beside the vectors, with their numbers."""
    return numbered(calling.beside(), gate_cases(), run_cases())


def narrowing_cases() -> List[Tuple[str, Worked]]:
    """The cases of narrow fields beside the vectors, with their numbers."""
    return numbered(narrowing.beside(), gate_cases(), run_cases(), calling_cases())


def worked_cases() -> List[Tuple[str, Worked]]:
    """The cases of analysis and run, with their numbers."""
    return calling_cases() + narrowing_cases()


def converting_cases() -> List[Tuple[str, converting.Beside]]:
    """The conversions beside the vectors, with their numbers."""
    return numbered(converting.beside(), gate_cases(), run_cases(), worked_cases())


def put_vectors(stored: Stored) -> None:
    """The files of the vectors' cases."""
    for case in vectors():
        answers = [kind for kind in ("derived", "converted") if case.has(kind)]
        stored.copy(case, "recipe", "condition", "sheet", "choices", "old", *answers)
        stored.ask(case.number, int(case.room), asks(case))


def put_beside(stored: Stored) -> None:
    """The files of the cases beside them."""
    for number, one in gate_cases():
        stored.put(number, "condition", one.condition)
        stored.put(number, "sheet", one.sheet)
        stored.ask(number, 0, MADE_UP)
    for number, one in run_cases():
        stored.put(number, "recipe", one.recipe)
        stored.put(number, "sheet", one.sheet)
        stored.put(number, "choices", one.choices)
        stored.ask(number, 0, one.asks)
    for number, one in worked_cases():
        stored.put(number, "recipe", one.recipe)
        stored.put(number, "sheet", one.sheet)
        stored.put(number, "choices", one.choice_file)
        if not isinstance(one.derive, str):
            stored.put(number, "derived", one.derived())
        stored.ask(number, one.room, ANALYSING | RUNNING)
    for number, one in converting_cases():
        stored.put(number, "old", one.old)
        if not one.refusal:
            stored.put(number, "converted", one.new)
        stored.ask(number, 0, CONVERTING)


def write(crate: str) -> None:
    """All the cases: their files, and what each part says of them."""
    stored = Stored(crate)
    put_vectors(stored)
    put_beside(stored)
    for part in (reading, analysing, filtering, running, converting):
        stored.say([part.__name__])
        for case in vectors():
            stored.say(part.lines(case))
        if part is analysing:
            stored.say(line for number, one in worked_cases() for line in (number, *one.listing()))
        if part is filtering:
            stored.say(f"{number} condition {one.answer}" for number, one in gate_cases())
        if part is running:
            stored.say(f"{number} {one.answer}" for number, one in run_cases())
            for number, one in worked_cases():
                stored.say([f"{number} {one.run}", *([f"{number} log {one.log().hex()}"] if one.records else [])])
        if part is converting:
            stored.say(f"{number} {one.answer}" for number, one in converting_cases())
    stored.write_stdout()


if __name__ == "__main__":
    write(sys.argv[1])
