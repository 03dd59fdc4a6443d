"""The eight types by their codes, with their widths and ends, and the causes for which a result is in none."""

from __future__ import annotations

import struct
from typing import List, Optional, Sequence

TYPES = ("u8", "u16", "u32", "u64", "i8", "i16", "i32", "i64")
LETTERS = "BHIQbhiq"
WIDTHS = tuple(1 << (code % 4) for code in range(len(TYPES)))
FIRST_SIGNED = 4
LOWEST = tuple(-(1 << (8 * WIDTHS[code] - 1)) if code >= FIRST_SIGNED else 0 for code in range(len(TYPES)))
HIGHEST = tuple((1 << (8 * WIDTHS[code] - (code >= FIRST_SIGNED))) - 1 for code in range(len(TYPES)))
CAUSES = TOO_BIG, TOO_SMALL, NO_DIVISOR = "too big", "too small", "no divisor"


def width(code: int) -> int:
    """The bytes that a value of the type takes."""
    return WIDTHS[code]


def is_signed(code: int) -> bool:
    """Whether the type has negative values."""
    return code >= FIRST_SIGNED


def lowest(code: int) -> int:
    """The lowest value of the type."""
    return LOWEST[code]


def highest(code: int) -> int:
    """The highest value of the type."""
    return HIGHEST[code]


def fits(code: int, value: int) -> bool:
    """Whether the value is in the type."""
    return LOWEST[code] <= value <= HIGHEST[code]


def cause_of(code: int, result: Optional[int]) -> Optional[str]:
    """Why a result, or none for a zero divisor, is no value of the type: one of CAUSES; nothing where it is one."""
    if result is None:
        return NO_DIVISOR
    return TOO_BIG if result > HIGHEST[code] else TOO_SMALL if result < LOWEST[code] else None


def immediate_value(code: int, immediate: int) -> int:
    """What the 4 bytes of an immediate stand for: two's complement for a signed type."""
    return immediate - (1 << 32) if is_signed(code) and immediate >> 31 else immediate


def fits_immediate(code: int, value: int) -> bool:
    """Whether 4 bytes can hold the value of this type."""
    if is_signed(code):
        return -(1 << 31) <= value < 1 << 31
    return 0 <= value < 1 << 32


def to_bytes(code: int, values: Sequence[int]) -> bytes:
    """Values of a type, one after the other."""
    return struct.pack(f"<{len(values)}{LETTERS[code]}", *values)


def from_bytes(code: int, data: bytes) -> List[int]:
    """The values of a type that lie one after the other."""
    return list(struct.unpack(f"<{len(data) // WIDTHS[code]}{LETTERS[code]}", data))
