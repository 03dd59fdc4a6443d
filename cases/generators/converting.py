"""The part `converting` of the program cases: old recipes of the outside vectors in their new form, and the cases beside them.

The refusals come from the vectors' answers, the new recipes from the .converted files. The cases beside the vectors: recipes whose
new form is told by their parts, what 9 to 11 would refuse among them, and each refusal of the old form."""
from typing import List, NamedTuple, Sequence

import calling
from filtering import U8, U32, I64
from recipes import ADD, END, FIELDS, LOAD, NUMBER, READ, SITE, STORE, TRAYS, VARIABLES, WHILE, Statement, old_recipe, recipe, s
from vectors import Case

UNBOUND = [s(NUMBER), s(WHILE), s(ADD, 1, 1, 0), s(END), s(SITE, 1)]
TOO_MANY_NODES = [s(READ), *[s(ADD)] * 7, s(SITE)]
TOO_MANY_WAYS = [s(STORE, 0, 8, 7), *(s(LOAD, v, 0, 8) for v in range(7)), *(s(ADD, 0, 0, v) for v in range(1, 7)), s(SITE)]
FULL_TRAYS = [bytes([U32, 0, 0, 1])] * 16


class Beside(NamedTuple):
    """A case: what it is there for, the old recipe, and the new one or the refusal."""

    what: str
    old: bytes
    new: bytes = b""
    refusal: int = 0

    @property
    def answer(self) -> str:
        """What is said of it."""
        return f"refused {self.refusal}" if self.refusal else f"converted {len(self.new)}"


def widened(what: str, types: Sequence[int], variables: Sequence[int], statements: Sequence[Statement], trays: Sequence[bytes] = ()) -> Beside:
    """A recipe that is converted, by its parts in both forms."""
    parts = variables, statements, trays
    return Beside(what, old_recipe(types, *parts), recipe(types, *parts))


def refused(what: str, refusal: int, statements: Sequence[Statement] = (), types: Sequence[int] = FIELDS,
            variables: Sequence[int] = VARIABLES, trays: Sequence[bytes] = TRAYS) -> Beside:
    """An old recipe that is refused."""
    return Beside(what, old_recipe(types, variables, statements, trays), refusal=refusal)


def conversions() -> List[Beside]:
    """Old recipes that are converted."""
    calls, full = [*calling.DOUBLES, s(READ), calling.call(1, 0, 0), s(SITE, 1)], [*[s(NUMBER, immediate=1)] * 1023, s(SITE)]
    return [
        widened("no fields: byte for byte the same", [], [U32], [s(SITE)]),
        widened("no fields, nor anything else: byte for byte the same", [], [], []),
        widened("a field of each type", range(8), [I64], [s(READ, 0, 7), s(SITE)], TRAYS),
        widened("fields alone", [U8, U32], [], []),
        widened("32 fields in 8,384 bytes, which become 8,416", [U32] * 32, [U32] * 64, full, FULL_TRAYS),
        widened("a procedure and a call", FIELDS, VARIABLES, calls, TRAYS),
        widened("what derive refuses with 9", FIELDS, VARIABLES, TOO_MANY_NODES, TRAYS),
        widened("what derive refuses with 10", FIELDS, VARIABLES, TOO_MANY_WAYS, TRAYS),
        widened("what derive refuses with 11", FIELDS, VARIABLES, UNBOUND, TRAYS),
    ]


def refusals() -> List[Beside]:
    """Old recipes that are refused."""
    full, site = [s(NUMBER, immediate=1)] * 1023, [s(SITE)]
    right = old_recipe(FIELDS, VARIABLES, site, TRAYS)
    return [
        Beside("no bytes", b"", refusal=2),
        Beside("a byte too many", right + bytes(1), refusal=2),
        Beside("a byte too few", right[:-1], refusal=2),
        refused("8,385 bytes, with a variable too many", 2, [*full, s(SITE)], [U32] * 32, [U32] * 65, FULL_TRAYS),
        refused("40 fields in 8,384 bytes, whose new form would be too long", 3, full, [U32] * 40, [U32] * 64, FULL_TRAYS),
        refused("33 fields", 3, site, [U32] * 33),
        refused("65 variables, and a field of type code 8", 3, site, [8], [U32] * 65),
        refused("a field of type code 8", 4, site, [8]),
        refused("a variable of type code 8", 4, site, FIELDS, [8]),
        refused("a tray of no cells", 4, site, trays=[bytes([U32, 0, 0, 0])]),
        Beside("a recipe of the new form: its u8 is taken for two fields, the second of type code 136",
               recipe([U8], [U8], [s(READ), s(SITE)]), refusal=4),
        refused("a kind 17", 5, [s(17)]),
        refused("a read of a second field, where there is one", 5, [s(READ, 0, 1)]),
        refused("a reading of another type", 6, [s(READ, 8)]),
        refused("an immediate outside its type", 7, [s(NUMBER, 8, immediate=256)]),
        refused("an end too many", 8, [s(END)]),
        refused("a procedure below another statement", 16, [s(NUMBER), *calling.DOUBLES]),
        Beside("no fields, and an end too many", recipe([], [U8], [s(END)]), refusal=8),
    ]


def beside() -> List[Beside]:
    """The cases, in order."""
    return [*conversions(), *refusals()]


def lines(case: Case) -> List[str]:
    """What is said of a case."""
    return [f"{case.number} {case.convert or 'converted %d' % len(case.content('converted'))}"]
