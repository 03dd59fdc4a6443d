"""Cases of recipes whose fields have fewer bits than their types, for the parts `analysing` and `running` of the program cases.

Second bytes that are right and wrong, entries of the old form, the longest recipe, and runs on readings at the ends of their bits
and beyond. The answers were worked out by hand."""
from typing import List, Sequence

from filtering import I16, U8, U32, column, narrow, sheet
from filtering import Field
from recipes import ADD, NUMBER, READ, SITE, Worked, of_sections, recipe, refused, s

FOUR_BITS = narrow(U8, 4)
FULL_FIELDS, FULL_TRAYS = [narrow(U32, 20)] * 32, [bytes([U32, 0, 0, 1])] * 16


def of_entries(*fields: Field) -> bytes:
    """A recipe with these fields, that reads the first twice and has a site on the sum."""
    return recipe(fields, [U8] * 2, [s(READ), s(READ, 1), s(ADD, 0, 0, 1), s(SITE)])


def second_bytes() -> List[Worked]:
    """The second byte of an entry, and entries of the old form."""
    variables = bytes([U8] * 2)
    statements = s(READ) + s(SITE)
    return [
        refused("a u8 of no bits, second byte 128", 4, of_entries(bytes([U8, 128]))),
        refused("a u8 of 9 bits, second byte 137", 4, of_entries(bytes([U8, 137]))),
        refused("second byte 127", 4, of_entries(bytes([U8, 127]))),
        refused("second byte 0", 4, of_entries(bytes([U8, 0]))),
        refused("second byte 255", 4, of_entries(bytes([U8, 255]))),
        refused("the second field's second byte", 4, of_entries(U8, bytes([U32, 161]))),
        refused("type code 8, with a second byte", 4, of_entries(U8, bytes([8, 136]))),
        refused("one entry of the old form: its section is odd", 2, of_sections(bytes([U8]), variables, b"", statements)),
        refused("two entries of the old form, u8 and u8, taken for one", 4, of_sections(bytes([U8, U8]), variables, b"", statements)),
        refused("33 fields", 3, recipe([U8] * 33, [U8], [s(SITE)])),
        refused("a wrong second byte, and 65 variables", 3, recipe([bytes([U8, 128])], [U8] * 65, [s(SITE)])),
        refused("a wrong second byte, and a kind 17", 4, recipe([bytes([U8, 128])], [U8], [s(17)])),
    ]


def longest(variables: int) -> bytes:
    """The longest recipe, but for its number of variables: its last statement is a site."""
    return recipe(FULL_FIELDS, [U32] * variables, [*[s(NUMBER, 63, immediate=5)] * 1023, s(SITE, 63)], FULL_TRAYS)


def run_on(what: str, run: str, field: Field, values: Sequence[int], total: int = 0) -> Worked:
    """A recipe that sums two readings of its field, run on these: it logs the sum, if it runs."""
    code = U8 if isinstance(field, int) else field[0]
    reads = recipe([field], [code] * 2, [s(READ), s(READ, 1), s(ADD, 0, 0, 1), s(SITE)])
    records = [] if run.startswith("refused") else [(3, 0, total)]
    return Worked(what, reads, ["f0<1> f0<2> add"], run, records, sheet(column(code, *values)), choices=2, fields=[field], code=code)


def runs() -> List[Worked]:
    """The longest recipe, and readings at the ends of their bits and beyond."""
    finished, wrong, blank = "end 0 steps 4 records 1", "refused 13", sheet(*[b""] * 32)
    unread = recipe([FOUR_BITS], [U8], [s(SITE)])
    return [
        Worked("8,416 bytes", longest(64), ["5"], "end 0 steps 1024 records 1", [(1023, 0, 5)], blank, 2000, fields=FULL_FIELDS),
        refused("8,417 bytes, with a variable too many", 2, longest(65)),
        run_on("u8 of 1 bit: 1", finished, narrow(U8, 1), [1], 2),
        run_on("u8 of 8 bits: 100", finished, narrow(U8, 8), [100], 200),
        run_on("u8 of 4 bits: 15, and a sum beyond them", finished, FOUR_BITS, [15], 30),
        run_on("u8 of 4 bits: 16", wrong, FOUR_BITS, [16]),
        run_on("u8 of 4 bits: 16 where no choice takes it", wrong, FOUR_BITS, [15, 16]),
        run_on("i16 of 4 bits: -8", finished, narrow(I16, 4), [-8], -16),
        run_on("i16 of 4 bits: 8", wrong, narrow(I16, 4), [8]),
        run_on("i16 of 4 bits: -9", wrong, narrow(I16, 4), [-9]),
        Worked("u8 of 4 bits: 16, and no statement reads it", unread, ["0"], wrong, sheet=sheet(bytes([16])), fields=[FOUR_BITS], code=U8),
    ]


def beside() -> List[Worked]:
    """The cases, in order."""
    return [*second_bytes(), *runs()]
