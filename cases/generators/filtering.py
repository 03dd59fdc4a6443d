"""The part `filtering` of the program cases: verdicts on the outside vectors, and the cases beside them.

The verdicts come from the vectors' answers; a condition whose answer is empty is left out. The cases beside the vectors: document
01's example of one field with 128 readings, here a u32 in which nothing overflows; blank fields, whose refusal 15 stands between
13 and 14; holds, with the cause of the first failure, as worked out by hand; sheets with wrong pairs, under a condition that has
fields alone; and fields of fewer bits than their type's."""
from typing import List, NamedTuple, Sequence, Tuple, Union

from stored import four
from vectors import Case

TYPES = ("u8", "u16", "u32", "u64", "i8", "i16", "i32", "i64")
U8, U16, U32, U64, I8, I16, I32, I64 = range(8)
CONSTANT, READING = 0, 1
OPERATIONS = {"add": 2, "sub": 3, "mul": 4, "div": 5, "to": 6}
# A field is its type, whose bits it has all, or the two bytes of its entry.
Field = Union[int, bytes]
OVER_BITS = 128


class Beside(NamedTuple):
    """A case beside the vectors: what it is there for, its condition and sheet, and the gate's answer."""

    what: str
    condition: bytes
    sheet: bytes
    answer: str


def conjunct(usual: int, text: str) -> bytes:
    """A conjunct from its postfix, as the listing has it; a node without a type has this one."""
    nodes = b""
    for node in text.split():
        word, _, name = node.partition(":")
        code = TYPES.index(name) if name else usual
        if word in OPERATIONS:
            nodes += bytes([OPERATIONS[word], code, 0, 0]) + four(0)
        elif word.startswith("f"):
            field, n = word[1:-1].split("<")
            nodes += bytes([READING, code, int(field), 0]) + four(int(n))
        else:
            nodes += bytes([CONSTANT, code, 0, 0]) + four(int(word) % 2**32)
    return nodes


def width(code: int) -> int:
    """The bytes of a type."""
    return 2 ** (code % 4)


def entry(field: Field) -> bytes:
    """The entry of a field."""
    return bytes([field, OVER_BITS + 8 * width(field)]) if isinstance(field, int) else field


def narrow(code: int, bits: int) -> Field:
    """A field of a type with so many bits."""
    return bytes([code, OVER_BITS + bits])


def condition(fields: Sequence[Field], *conjuncts: bytes) -> bytes:
    """A condition's file; the conjuncts are given in the file's order."""
    entries = b"".join(map(entry, fields))
    table, at = b"", 8 + len(entries) + 8 * len(conjuncts)
    for conjunct in conjuncts:
        table += four(at) + four(len(conjunct))
        at += len(conjunct)
    return four(len(conjuncts)) + four(len(fields)) + entries + table + b"".join(conjuncts)


def sheet(*columns: bytes) -> bytes:
    """A sheet's file from the bytes of each field's readings."""
    table, at = b"", 8 * len(columns)
    for column in columns:
        table += four(at) + four(len(column))
        at += len(column)
    return table + b"".join(columns)


def column(code: int, *values: int) -> bytes:
    """The bytes of a field's readings."""
    return b"".join((value % 2 ** (8 * width(code))).to_bytes(width(code), "little") for value in values)


def blank_fields() -> List[Beside]:
    """Blank fields, read by a conjunct and not, beside what else would be refused or held."""
    product = condition([U32, U32], conjunct(U32, "f0<1> f1<1> mul"))
    square = condition([U32, U32], conjunct(U32, "f0<1> f0<2> mul"))
    second_blank = sheet(four(1), b"")
    many = condition([U8, U8], conjunct(U8, "f1<1>"), conjunct(U8, "f0<1> f0<2> add f0<3> add"))
    behind_many = condition([U8, U8], conjunct(U8, "f0<1> f0<2> add f0<3> add"), conjunct(U8, "f1<1> 0 add 0 add"))
    over = condition([U8], conjunct(U8, "f0<1>"), conjunct(U8, "255 1 add"))
    behind_over = condition([U8], conjunct(U8, "255 1 add"), conjunct(U8, "f0<1> 0 add"))
    return [
        Beside("a product of two fields, the second blank", product, second_blank, "refused 15"),
        Beside("the same sheet, and a conjunct that reads the first field alone", square, second_blank, "pass"),
        Beside("a blank field in the first conjunct, 2,097,152 combinations in the last", many, sheet(bytes(128), b""), "refused 15"),
        Beside("the same with a reading in the blank field", many, sheet(bytes(128), bytes(1)), "refused 14"),
        Beside("a blank field in the last conjunct, 2,097,152 combinations in the first", behind_many, sheet(bytes(128), b""), "refused 15"),
        Beside("a blank field in the first conjunct, an overflow in the last", over, sheet(b""), "refused 15"),
        Beside("a blank field in the last conjunct, an overflow in the first", behind_over, sheet(b""), "refused 15"),
        Beside("a blank field, and a byte too many behind the readings", product, second_blank + bytes(1), "refused 13"),
        Beside("blank fields, and a condition that lacks its last byte", product[:-1], sheet(b"", b""), "refused 12"),
        Beside("a blank field, and an empty condition", condition([U8]), sheet(b""), "pass"),
    ]


def held(cause: str, what: str, code: int, conjuncts: str, *columns: Sequence[int]) -> Beside:
    """A hold: its conjuncts, with a semicolon between, and the readings of each field, all of this type."""
    types, parts = [code] * len(columns), [conjunct(code, text) for text in conjuncts.split(";")]
    return Beside(what, condition(types, *parts), sheet(*(column(code, *values) for values in columns)), f"held {cause}")


def first_failures() -> List[Beside]:
    """Holds: what overflows, and where another order would meet another failure first."""
    lowest, highest, digits = -2**31, 2**64 - 1, range(128)
    many = condition([U8], conjunct(U8, "255 1 add"), conjunct(U8, "f0<1> f0<2> add f0<3> add"))
    return [
        held("too big", "the lowest i32 divided by -1", I32, "f0<1> f1<1> div", [lowest], [-1]),
        held("no divisor", "the lowest i32 divided by 0", I32, "f0<1> f1<1> div", [lowest], [0]),
        held("no divisor", "0 divided by 0", U8, "f0<1> f0<1> div", [0]),
        held("too small", "i32 -1 converted to u32", I32, "f0<1> to:u32", [-1]),
        held("too big", "the highest u64 converted to i8", U64, "f0<1> to:i8", [highest]),
        held("too small", "the second of two fields runs fastest: 1 - 2 fails first, and 0 - 1 would if the first did",
             U8, "f0<1> f1<1> sub", [1, 0], [0, 1, 2]),
        held("too big", "the same with other readings: 100 - (-100) fails first, and -100 - 100 would if the first did",
             I8, "f0<1> f1<1> sub", [100, -100], [0, 100, -100]),
        held("too big", "the atoms go by first appearance, not by field: the readings of the case before, their fields exchanged",
             I8, "f1<1> f0<1> sub", [0, 100, -100], [100, -100]),
        held("too big", "two steps fail with the same reading: the product stands before the difference",
             U8, "f0<1> f0<1> mul 0 f0<1> sub add", [16]),
        held("too small", "the same with the difference before the product", U8, "0 f0<1> sub f0<1> f0<1> mul add", [16]),
        held("too big", "20 and 16 fail at the product; 20 and 30 fail at the difference before it, and come later",
             U8, "f0<1> f1<1> sub f1<1> f1<1> mul add", [20], [16, 30]),
        held("too small", "two conjuncts fail: the first counts", U8, "1 f0<1> sub; f0<1> f0<2> add", [3, 200]),
        held("too small", "the first conjunct fails with its last reading, the second with the first",
             U8, "f0<1> 5 sub; f0<1> f0<1> mul", [16, 7, 4]),
        held("no divisor", "of 16,384 combinations the last one fails", I32, quotient(16383), digits),
        held("no divisor", "combination 9,999 fails at the quotient, combination 10,000 at the conversion that stands before it",
             I32, f"{conversion(10000)} {quotient(9999)} add", digits),
        held("too big", "combination 9,999 fails at the conversion, combination 10,000 at the quotient that stands before it",
             I32, f"{quotient(10000)} {conversion(9999)} add", digits),
        Beside("an overflow in the first conjunct, 2,097,152 combinations in the last", many, sheet(bytes(128)), "refused 14"),
    ]


def paired(what: str, answer: str, types: Sequence[int], size: int, *pairs: Tuple[int, int]) -> Beside:
    """A sheet of this size with these pairs of offset and length, under the condition of such fields without a conjunct."""
    table = b"".join(four(offset) + four(length) for offset, length in pairs)
    return Beside(what, condition(types), table.ljust(size, bytes([7])), answer)


def wrong_pairs() -> List[Beside]:
    """Sheets whose pairs are wrong in one way or another, and some that are right beside them."""
    three, wrong = [U8, U8, U8], "refused 13"
    return [
        paired("the second pair is too long and ends past the file, the third begins elsewhere", wrong, three, 26, (24, 1), (25, 200), (9, 0)),
        paired("the second pair ends past the file, the third begins elsewhere", wrong, three, 26, (24, 1), (25, 100), (9, 0)),
        paired("the second pair is blank and a byte late, the third ends the file", wrong, three, 26, (24, 1), (26, 0), (25, 1)),
        paired("the second pair leaves a byte out, the third ends the file", wrong, three, 28, (24, 1), (26, 1), (27, 1)),
        paired("the third pair ends a byte past the file", wrong, three, 26, (24, 1), (25, 0), (25, 2)),
        paired("no pair is wrong, and a byte is left over", wrong, three, 27, (24, 1), (25, 0), (25, 1)),
        paired("the same without that byte", "pass", three, 26, (24, 1), (25, 0), (25, 1)),
        paired("the file is shorter than its table", wrong, three, 23, (24, 0), (24, 0)),
        paired("no fields, and a byte", wrong, [], 1),
        paired("no fields, and no byte", "pass", [], 0),
        paired("one and a half readings", wrong, [U16], 11, (8, 3)),
        paired("129 readings", wrong, [U16], 266, (8, 258)),
        paired("128 readings", "pass", [U16], 264, (8, 256)),
    ]


def second(what: str, answer: str, *entries: Tuple[int, int]) -> Beside:
    """Fields by the two bytes of their entries, with a reading of 0 each, under a condition without conjuncts."""
    return Beside(what, condition([bytes(one) for one in entries]), sheet(*(bytes(width(code)) for code, _ in entries)), answer)


def second_bytes() -> List[Beside]:
    """The second byte of a field's entry: 128 plus 1 to the bits of its type."""
    wrong, old = "refused 12", four(0) + four(1) + bytes([U8])
    return [
        second("a u8 of no bits, second byte 128", wrong, (U8, 128)),
        second("a u8 of 9 bits, second byte 137", wrong, (U8, 137)),
        second("second byte 127", wrong, (U8, 127)),
        second("second byte 0", wrong, (U8, 0)),
        second("second byte 255", wrong, (U8, 255)),
        second("eight u8 of 1 to 8 bits, second bytes 129 to 136", "pass", *((U8, byte) for byte in range(129, 137))),
        second("all types with all their bits", "pass", *((code, 128 + 8 * width(code)) for code in range(8))),
        second("all types, the i64 with a bit too many", wrong, *((code, 128 + 8 * width(code)) for code in range(7)), (I64, 193)),
        second("an i8 of 9 bits", wrong, (I8, 137)),
        second("a u16 of 17 bits beside one of 16", wrong, (U16, 144), (U16, 145)),
        Beside("an entry of the old form", old, sheet(bytes(1)), wrong),
        Beside("two entries of the old form", four(0) + four(2) + bytes([U8, U8]), sheet(bytes(1), bytes(1)), wrong),
        Beside("a wrong second byte, and a sheet that is none", condition([bytes([U8, 128])]), b"", wrong),
    ]


def reading(what: str, answer: str, code: int, bits: int, *values: int) -> Beside:
    """A field of so many bits and its readings, under a condition without conjuncts."""
    return Beside(what, condition([narrow(code, bits)]), sheet(column(code, *values)), answer)


def beyond_bits() -> List[Beside]:
    """Readings at the ends of their field's bits, and beyond them."""
    wrong, four_bits = "refused 13", narrow(U8, 4)
    return [
        reading("u8 of 4 bits: 0, 15", "pass", U8, 4, 0, 15),
        reading("u8 of 4 bits: 16", wrong, U8, 4, 16),
        reading("i8 of 1 bit: -1, 0", "pass", I8, 1, -1, 0),
        reading("i8 of 1 bit: 1", wrong, I8, 1, 1),
        reading("i16 of 4 bits: -8, 7", "pass", I16, 4, -8, 7),
        reading("i16 of 4 bits: 8", wrong, I16, 4, 8),
        reading("i16 of 4 bits: -9", wrong, I16, 4, -9),
        reading("u16 of 8 bits: 255", "pass", U16, 8, 255),
        reading("u16 of 8 bits: 256, beyond them in its second byte alone", wrong, U16, 8, 256),
        reading("u64 of 63 bits: the highest", "pass", U64, 63, 2**63 - 1),
        reading("u64 of 63 bits: one more", wrong, U64, 63, 2**63),
        reading("i64 of 63 bits: the lowest and the highest", "pass", I64, 63, -2**62, 2**62 - 1),
        reading("i64 of 63 bits: one less than the lowest", wrong, I64, 63, -2**62 - 1),
        reading("i64 of 63 bits: one more than the highest", wrong, I64, 63, 2**62),
        reading("u64 of 64 bits: the highest", "pass", U64, 64, 2**64 - 1),
        reading("i64 of 64 bits: the lowest and the highest", "pass", I64, 64, -2**63, 2**63 - 1),
        reading("the last of 128 readings is beyond its bits", wrong, U8, 4, *[15] * 127, 16),
        Beside("the second of two fields has a reading beyond its bits, which are not the first's", condition([U8, four_bits]),
               sheet(bytes([16]), bytes([16])), wrong),
        Beside("a reading beyond its bits, in a field that no conjunct reads", condition([U8, four_bits], conjunct(U8, "f0<1>")),
               sheet(bytes([1]), bytes([16])), wrong),
        Beside("a reading beyond its bits, beside a blank field", condition([U8, four_bits], conjunct(U8, "f0<1>")),
               sheet(b"", bytes([16])), wrong),
        Beside("a reading beyond its bits, and 2,097,152 combinations", condition([four_bits], conjunct(U8, "f0<1> f0<2> add f0<3> add")),
               sheet(bytes([*[0] * 127, 16])), wrong),
        Beside("a blank field of 4 bits, which no conjunct reads", condition([four_bits]), sheet(b""), "pass"),
        Beside("a blank field of 4 bits, which a conjunct reads", condition([four_bits], conjunct(U8, "f0<1>")), sheet(b""), "refused 15"),
        Beside("a sum beyond 4 bits: results have their type", condition([four_bits], conjunct(U8, "f0<1> f0<2> add")),
               sheet(bytes([15])), "pass"),
        Beside("a product beyond u8, of readings of 4 bits", condition([four_bits], conjunct(U8, "f0<1> 20 mul")),
               sheet(bytes([12, 13])), "held too big"),
    ]


def quotient(number: int) -> str:
    """What has no divisor in the combination with this number, from 0, and is small in all others."""
    return f"1 {less(number)} div"


def conversion(number: int) -> str:
    """What is too big for an i8 in the combination with this number, and fits it in all others."""
    return f"255 {less(number)} {less(number)} mul 1 add div to:i8 to"


def less(number: int) -> str:
    """The number of a combination less this one; two atoms with the readings 0 to 127 are its digits."""
    return f"f0<1> 128 mul f0<2> add {number} sub"


def beside() -> List[Beside]:
    """The cases beside the vectors, in order."""
    two, three = conjunct(U32, "f0<1> f0<2> add"), conjunct(U32, "f0<1> f0<2> f0<3> add add")
    full = sheet(b"".join(four(n) for n in range(128)))
    return [
        Beside("one field of 128 readings and two atoms, 16,384 combinations", condition([U32], two), full, "pass"),
        Beside("the same with three atoms, 2,097,152 combinations", condition([U32], three), full, "refused 14"),
        *blank_fields(),
        *first_failures(),
        *wrong_pairs(),
        *second_bytes(),
        *beyond_bits(),
    ]


def lines(case: Case) -> List[str]:
    """What is said of a case."""
    answers = (("condition", case.made_up), ("derived", case.derived))
    return [f"{case.number} {kind} {answer}" for kind, answer in answers if answer]
