"""Recipes' files by their parts, in today's form and in the one before fields had bits, and cases of recipes beside the vectors."""
from typing import List, NamedTuple, Sequence, Tuple, Union

from filtering import TYPES, U8, U32, Field, condition, conjunct, entry, sheet
from stored import four

NUMBER, COPY, ADD, SUBTRACT, READ, LOAD, STORE, SITE, IF, ELSE, END, WHILE, PROCEDURE, CALL = 0, 1, 2, 3, *range(7, 17)
Statement = bytes
FIELDS, VARIABLES, TRAYS = (U32,), (*[U32] * 8, U8), (bytes([U32, 0, 2, 0]),)
SEVEN, BLANK = sheet(four(7)), sheet(b"")


def s(kind: int, a: int = 0, b: int = 0, c: int = 0, immediate: int = 0) -> Statement:
    """A statement."""
    return bytes([kind, a, b, c]) + four(immediate)


def of_sections(*sections: bytes) -> bytes:
    """A recipe's file."""
    table, at = b"", 32
    for section in sections:
        table += four(at) + four(len(section))
        at += len(section)
    return table + b"".join(sections)


def recipe(fields: Sequence[Field], variables: Sequence[int], statements: Sequence[Statement], trays: Sequence[bytes] = ()) -> bytes:
    """A recipe of today's form; a field that is a type alone has all its bits."""
    return of_sections(b"".join(map(entry, fields)), bytes(variables), b"".join(trays), b"".join(statements))


def old_recipe(types: Sequence[int], variables: Sequence[int], statements: Sequence[Statement], trays: Sequence[bytes] = ()) -> bytes:
    """A recipe of the old form, whose fields are types alone."""
    return of_sections(bytes(types), bytes(variables), b"".join(trays), b"".join(statements))


class Worked(NamedTuple):
    """A case: what it is there for, its recipe and fields, its sheet, the run's limit, choices and room, and the answers.

    `derive` is a refusal or the conjuncts, all of one type; `records` are the label, the mark and the value of each."""

    what: str
    recipe: bytes
    derive: Union[str, Sequence[str]]
    run: str
    records: Sequence[Tuple[int, int, int]] = ()
    sheet: bytes = SEVEN
    limit: int = 100
    choices: int = 1
    room: int = 120
    fields: Sequence[Field] = FIELDS
    code: int = U32

    @property
    def choice_file(self) -> bytes:
        """The limit, and choices of 0."""
        return four(self.limit) + bytes(2 * self.choices)

    def derived(self) -> bytes:
        """The condition's file, of a recipe that is accepted."""
        return condition(self.fields, *[conjunct(self.code, text) for text in self.derive])

    def listing(self) -> List[str]:
        """The listing program's lines."""
        if isinstance(self.derive, str):
            return [self.derive]
        name = TYPES[self.code]
        typed = [" ".join(f"{node}:{name}" for node in text.split()) for text in self.derive]
        return [f"conjuncts {len(typed)}", *(f"{place}: {text}" for place, text in enumerate(typed))]

    def log(self) -> bytes:
        """The records' bytes."""
        return b"".join(label.to_bytes(2, "little") + bytes([mark, 0]) + (value % 2**64).to_bytes(8, "little")
                        for label, mark, value in self.records)


def refused(what: str, number: int, file: bytes) -> Worked:
    """A recipe that analysis and run refuse."""
    return Worked(what, file, f"refused {number}", f"refused {number}")
