//! The fields of recipes and conditions: a type, and the number of bits that hold their readings.

use crate::types::{is_signed, wrap, TYPES};

/// The bytes of a field's entry: its type, and 128 plus the number of its bits.
pub const ENTRY: usize = 2;

/// What is added to the number of bits in an entry.
const OVER_BITS: u8 = 128;

#[derive(Clone, Copy, Debug, PartialEq, Eq)]
pub struct Field {
    pub ty: u8,
    pub bits: u8,
}

impl Field {
    /// A field whose readings have all bits of its type.
    #[must_use]
    pub fn whole(ty: u8) -> Field {
        Field { ty, bits: TYPES[ty as usize].bits as u8 }
    }

    #[must_use]
    pub fn is_whole(self) -> bool {
        u32::from(self.bits) == TYPES[self.ty as usize].bits
    }

    /// The field of an entry, or nothing if a byte of it is wrong.
    #[must_use]
    pub fn of_entry([ty, size]: [u8; ENTRY]) -> Option<Field> {
        let width = TYPES.get(ty as usize)?.bits;
        let bits = size.checked_sub(OVER_BITS)?;
        (1..=width).contains(&bits.into()).then_some(Field { ty, bits })
    }

    #[must_use]
    pub fn entry(self) -> [u8; ENTRY] {
        [self.ty, OVER_BITS + self.bits]
    }

    /// The lowest and the highest value that its bits hold, in two's complement if its type is signed.
    #[must_use]
    pub fn ends(self) -> (i128, i128) {
        if is_signed(self.ty) {
            let half = 1i128 << (self.bits - 1);
            (-half, half - 1)
        } else {
            (0, (1i128 << self.bits) - 1)
        }
    }

    /// Whether its bits hold a held value of its type: taking them alone gives the value again.
    #[must_use]
    pub fn holds(self, value: u64) -> bool {
        self.kept(value) == value
    }

    /// The value of its bits alone, extended again.
    #[must_use]
    pub fn kept(self, value: u64) -> u64 {
        let shift = 64 - u32::from(self.bits);
        let value = wrap(self.ty, value);
        if is_signed(self.ty) {
            ((value << shift) as i64 >> shift) as u64
        } else {
            (value << shift) >> shift
        }
    }
}

/// Fields of these types with all their bits.
#[must_use]
pub fn whole(types: &[u8]) -> Vec<Field> {
    types.iter().map(|&ty| Field::whole(ty)).collect()
}

/// The types of fields.
#[must_use]
pub fn types(fields: &[Field]) -> Vec<u8> {
    fields.iter().map(|field| field.ty).collect()
}

/// The entries of fields.
#[must_use]
pub fn entries(fields: &[Field]) -> Vec<u8> {
    fields.iter().flat_map(|field| field.entry()).collect()
}

/// The fields of entries, or nothing if one is wrong.
#[must_use]
pub fn of_entries(entries: &[u8]) -> Option<Vec<Field>> {
    entries.as_chunks().0.iter().map(|&entry| Field::of_entry(entry)).collect()
}
