"""A field's entry in a recipe's file and a condition's: its type, and 128 plus the number of bits that hold its readings."""

from __future__ import annotations

from typing import Iterable, List, Optional, Tuple

from .ranges import TYPES, is_signed, width
from .sizes import FIELD_BYTES, OVER_BITS
from .statements import Named


def all_bits(code: int) -> int:
    """The bits of a type."""
    return 8 * width(code)


def ends(code: int, bits: int) -> Tuple[int, int]:
    """The lowest and the highest value that so many bits hold, in two's complement for a signed type."""
    return (-(1 << (bits - 1)), (1 << (bits - 1)) - 1) if is_signed(code) else (0, (1 << bits) - 1)


def packed(fields: Iterable[Named]) -> bytes:
    """The entries of fields."""
    return b"".join(bytes([field.code, OVER_BITS + field.bits]) for field in fields)


def unpacked(entries: bytes) -> List[Named]:
    """The fields of entries that are right, with the names f0 onward."""
    return [Named(f"f{at // FIELD_BYTES}", entries[at], bits=entries[at + 1] - OVER_BITS) for at in range(0, len(entries), FIELD_BYTES)]


def wrong(entry: bytes) -> str:
    """What is wrong with an entry; nothing where it is right."""
    code, second = entry
    if code >= len(TYPES):
        return f"has type code {code}, and the highest is {len(TYPES) - 1}"
    if not OVER_BITS < second <= OVER_BITS + all_bits(code):
        return f"has second byte {second}, and {TYPES[code]} has {OVER_BITS + 1} to {OVER_BITS + all_bits(code)}"
    return ""


def bits_told(bits: int) -> str:
    """A number of bits in words."""
    return "1 bit" if bits == 1 else f"{bits} bits"


def declared(field: Named) -> str:
    """The line that declares a field; one with all bits of its type names none."""
    line = f"field {field.name} {TYPES[field.code]}"
    return line if field.bits == all_bits(field.code) else f"{line} {bits_told(field.bits)}"


def beyond(field: Named, value: int) -> Optional[Tuple[str, str]]:
    """What does not hold a value, as a field's type or its bits, and what would be right; nothing where it is held."""
    low, high = ends(field.code, field.bits)
    if low <= value <= high:
        return None
    name = TYPES[field.code]
    if field.bits == all_bits(field.code):
        return name, f"{name} goes from {low} to {high}"
    held = f"{bits_told(field.bits)} of {name}"
    return held, f"{held} {'goes' if field.bits == 1 else 'go'} from {low} to {high}"
