//! The records of a log and the choices of a run.

/// The bytes of one record in a log.
pub const RECORD: usize = 12;

/// What a run logs when it reaches a critical site.
#[derive(Clone, Copy, Debug, PartialEq, Eq)]
pub struct Record {
    /// The site's label: its place among the statements, from 0.
    pub label: u16,
    /// Whether a step of the value's making overflowed. Behind the gate it is never so.
    pub marked: bool,
    /// The value, sign extended if its type is signed.
    pub value: u64,
}

impl Record {
    /// The record of its bytes.
    #[must_use]
    pub fn of_bytes(bytes: &[u8; RECORD]) -> Record {
        let [l0, l1, mark, _, value @ ..] = *bytes;
        Record { label: u16::from_le_bytes([l0, l1]), marked: mark != 0, value: u64::from_le_bytes(value) }
    }

    /// The value of a site whose variable has a signed type.
    #[must_use]
    pub fn signed(self) -> i64 {
        i64::from_le_bytes(self.value.to_le_bytes())
    }
}

/// The records of a log; bytes that are no whole record are passed over.
pub fn records(log: &[u8]) -> impl Iterator<Item = Record> + '_ {
    log.chunks_exact(RECORD).filter_map(|bytes| bytes.try_into().ok()).map(Record::of_bytes)
}

/// Which reading of its field each read takes, from 0 and modulo the number of readings, in the order of
/// the reads.
///
/// ```
/// use gate::Choices;
/// let choices: Choices = (0..3).collect();
/// assert_eq!(choices, Choices::from([0, 1, 2]));
/// assert_eq!(choices.as_bytes(), [0, 0, 1, 0, 2, 0]);
/// ```
#[derive(Clone, Debug, Default, PartialEq, Eq)]
pub struct Choices(Vec<u8>);

impl Choices {
    /// Choices of 2 bytes each, little-endian; an odd last byte is passed over by a run.
    #[must_use]
    pub fn of_bytes(bytes: impl Into<Vec<u8>>) -> Choices {
        Choices(bytes.into())
    }

    /// The bytes that a run takes.
    #[must_use]
    pub fn as_bytes(&self) -> &[u8] {
        &self.0
    }
}

impl FromIterator<u16> for Choices {
    fn from_iter<I: IntoIterator<Item = u16>>(choices: I) -> Choices {
        Choices(choices.into_iter().flat_map(u16::to_le_bytes).collect())
    }
}

impl From<&[u16]> for Choices {
    fn from(choices: &[u16]) -> Choices {
        choices.iter().copied().collect()
    }
}

impl<const N: usize> From<[u16; N]> for Choices {
    fn from(choices: [u16; N]) -> Choices {
        choices.into_iter().collect()
    }
}
