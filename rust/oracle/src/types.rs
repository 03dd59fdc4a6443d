//! The eight types and their arithmetic.
//!
//! A value is held in a `u64`: sign extended if its type is signed, else zero
//! extended. That is also the form of its 8 bytes in the log.

/// One type: its name, its width in bits, its lowest and its highest value.
pub struct Type {
    pub name: &'static str,
    pub bits: u32,
    pub lowest: i64,
    pub highest: u64,
}

const fn unsigned(name: &'static str, bits: u32) -> Type {
    Type { name, bits, lowest: 0, highest: u64::MAX >> (64 - bits) }
}

const fn signed(name: &'static str, bits: u32) -> Type {
    Type { name, bits, lowest: i64::MIN >> (64 - bits), highest: (i64::MAX >> (64 - bits)) as u64 }
}

/// The types by their code, 0 to 7.
pub const TYPES: [Type; 8] = [
    unsigned("u8", 8),
    unsigned("u16", 16),
    unsigned("u32", 32),
    unsigned("u64", 64),
    signed("i8", 8),
    signed("i16", 16),
    signed("i32", 32),
    signed("i64", 64),
];

/// Kinds of statements; 0, 2 to 6 are kinds of nodes too.
pub const CONSTANT: u8 = 0;
pub const COPY: u8 = 1;
pub const ADD: u8 = 2;
pub const SUBTRACT: u8 = 3;
pub const MULTIPLY: u8 = 4;
pub const DIVIDE: u8 = 5;
pub const CONVERT: u8 = 6;
pub const READ: u8 = 7;
pub const LOAD: u8 = 8;
pub const STORE: u8 = 9;
pub const SITE: u8 = 10;
pub const IF: u8 = 11;
pub const ELSE: u8 = 12;
pub const END: u8 = 13;
pub const WHILE: u8 = 14;
pub const PROCEDURE: u8 = 15;
pub const CALL: u8 = 16;

/// Whether a type code is one of the signed types.
#[inline]
#[must_use]
pub fn is_signed(ty: u8) -> bool {
    ty >= 4
}

/// The width of a type in bytes.
#[inline]
#[must_use]
pub fn width(ty: u8) -> usize {
    (TYPES[ty as usize].bits / 8) as usize
}

/// Why a step overflows: its result lies above the type's range or below it, or there is no divisor.
#[derive(Clone, Copy, Debug, PartialEq, Eq)]
pub enum Cause {
    Above,
    Below,
    NoDivisor,
}

/// Keeps the low bits of a number that its type has, extended again.
#[inline]
#[must_use]
pub fn wrap(ty: u8, number: u64) -> u64 {
    let shift = 64 - TYPES[ty as usize].bits;
    if is_signed(ty) {
        ((number << shift) as i64 >> shift) as u64
    } else {
        (number << shift) >> shift
    }
}

/// A held value as a whole number.
#[inline]
#[must_use]
pub fn number(ty: u8, value: u64) -> i128 {
    if is_signed(ty) {
        i128::from(value as i64)
    } else {
        i128::from(value)
    }
}

/// A 4-byte immediate as a held value, or nothing if it lies outside the type.
#[inline]
#[must_use]
pub fn immediate(ty: u8, bytes: u32) -> Option<u64> {
    let value = if is_signed(ty) { i64::from(bytes as i32) as u64 } else { u64::from(bytes) };
    (wrap(ty, value) == value).then_some(value)
}

/// One of the kinds 2 to 5 on two values of a type; nothing if it overflows.
#[inline]
#[must_use]
pub fn exact(kind: u8, ty: u8, left: u64, right: u64) -> Option<u64> {
    let range = &TYPES[ty as usize & 7];
    if is_signed(ty) {
        let (left, right) = (left as i64, right as i64);
        let result = match kind {
            ADD => left.checked_add(right),
            SUBTRACT => left.checked_sub(right),
            MULTIPLY => left.checked_mul(right),
            _ => left.checked_div(right),
        }?;
        (range.lowest <= result && result <= range.highest as i64).then_some(result as u64)
    } else {
        let result = match kind {
            ADD => left.checked_add(right),
            SUBTRACT => left.checked_sub(right),
            MULTIPLY => left.checked_mul(right),
            _ => left.checked_div(right),
        }?;
        (result <= range.highest).then_some(result)
    }
}

/// One of the kinds 2 to 5, wrapped to the type, and whether it overflowed.
#[inline]
#[must_use]
pub fn wrapping(kind: u8, ty: u8, left: u64, right: u64) -> (u64, bool) {
    if let Some(result) = exact(kind, ty, left, right) {
        (result, false)
    } else {
        let result = match kind {
            ADD => left.wrapping_add(right),
            SUBTRACT => left.wrapping_sub(right),
            MULTIPLY => left.wrapping_mul(right),
            // A zero divisor gives 0; else this is the lowest value by -1.
            _ if right == 0 => 0,
            _ => left.wrapping_neg(),
        };
        (wrap(ty, result), true)
    }
}

/// Whether a value of one type fits another.
#[inline]
#[must_use]
pub fn fits(from: u8, to: u8, value: u64) -> bool {
    let range = &TYPES[to as usize & 7];
    if is_signed(from) && (value as i64) < 0 {
        range.lowest <= value as i64
    } else {
        value <= range.highest
    }
}

/// A step of kind 2 to 6 in a type, on values of the type `from`: its result, or why it overflows. A conversion
/// looks at its left operand alone.
#[inline]
pub fn step(kind: u8, ty: u8, from: u8, left: u64, right: u64) -> Result<u64, Cause> {
    let result = match kind {
        CONVERT => fits(from, ty, left).then_some(left),
        _ => exact(kind, ty, left, right),
    };
    result.ok_or_else(|| cause(kind, number(from, left), number(from, right)))
}

/// Why a step overflows, where it does.
fn cause(kind: u8, left: i128, right: i128) -> Cause {
    let below = match kind {
        ADD => left + right < 0,
        SUBTRACT => left < right,
        DIVIDE if right == 0 => return Cause::NoDivisor,
        MULTIPLY | DIVIDE => (left < 0) != (right < 0),
        _ => left < 0,
    };
    // Every type has 0, so that a result outside its range lies on the side of its sign.
    if below {
        Cause::Below
    } else {
        Cause::Above
    }
}
