//! The sheet reader, and the first wrong pair of a sheet.

use crate::fields::Field;
use crate::recipe::word;
use crate::types::{width, wrap};

pub const MOST_READINGS: usize = 128;

/// A sheet that was read: all readings as held values, and where each field's lie.
pub struct Sheet {
    values: Vec<u64>,
    starts: Vec<usize>,
}

impl Sheet {
    /// Reads a sheet for fields; everything out of form is 13.
    pub fn read(bytes: &[u8], fields: &[Field]) -> Result<Sheet, u8> {
        let sheet = read(bytes, fields).ok_or(13)?;
        match sheet.first_beyond(fields) {
            None => Ok(sheet),
            Some(_) => Err(13),
        }
    }

    /// The first field with a reading that its bits do not hold.
    fn first_beyond(&self, fields: &[Field]) -> Option<usize> {
        let beyond = |&i: &usize| self.readings(i).iter().any(|&value| !fields[i].holds(value));
        (0..fields.len()).find(|&i| !fields[i].is_whole() && beyond(&i))
    }

    /// The readings of a field.
    #[inline]
    #[must_use]
    pub fn readings(&self, field: usize) -> &[u64] {
        &self.values[self.starts[field]..self.starts[field + 1]]
    }

    /// Appends readings of a type that is N bytes wide.
    fn append<const N: usize>(&mut self, bytes: &[u8], ty: u8) {
        self.values.extend(bytes.as_chunks::<N>().0.iter().map(|reading| {
            let mut value = [0; 8];
            value[..N].copy_from_slice(reading);
            wrap(ty, u64::from_le_bytes(value))
        }));
    }
}

/// The first field with a reading beyond its bits, in a sheet that is else in form.
#[must_use]
pub fn first_beyond(bytes: &[u8], fields: &[Field]) -> Option<usize> {
    read(bytes, fields)?.first_beyond(fields)
}

/// A sheet whose readings have all bits of their types.
fn read(bytes: &[u8], fields: &[Field]) -> Option<Sheet> {
    let mut start = 8 * fields.len();
    if start > bytes.len() {
        return None;
    }
    let mut starts = Vec::with_capacity(fields.len() + 1);
    starts.push(0);
    let mut sheet = Sheet { values: Vec::new(), starts };
    for (i, &Field { ty, .. }) in fields.iter().enumerate() {
        let (offset, length) = (word(bytes, 8 * i) as usize, word(bytes, 8 * i + 4) as usize);
        let width = width(ty);
        if offset != start || length % width != 0 || length / width > MOST_READINGS {
            return None;
        }
        let readings = bytes.get(start..start + length)?;
        match width {
            1 => sheet.append::<1>(readings, ty),
            2 => sheet.append::<2>(readings, ty),
            4 => sheet.append::<4>(readings, ty),
            _ => sheet.append::<8>(readings, ty),
        }
        sheet.starts.push(sheet.values.len());
        start += length;
    }
    (start == bytes.len()).then_some(sheet)
}

/// The first wrong pair of a sheet for fields, as in document 02's Card 3, or nothing if all are
/// right. The sheet is refused with 13 all the same if the last part does not end the file, or a reading is beyond its
/// bits. Missing bytes count as 0,
/// so that pair 0 of a file shorter than its pairs is wrong: it begins elsewhere, or runs past the file.
#[must_use]
pub fn first_wrong(bytes: &[u8], fields: &[Field]) -> Option<usize> {
    (0..fields.len())
        .find(|&i| begins_elsewhere(bytes, fields, i) || wrong_length(bytes, fields[i], i) || runs_past(bytes, i))
}

/// Whether a pair does not begin where the one before ends, or pair 0 not where the pairs end.
fn begins_elsewhere(bytes: &[u8], fields: &[Field], i: usize) -> bool {
    let due = if i == 0 { 8 * fields.len() as u64 } else { end(bytes, i - 1) };
    offset(bytes, i) != due
}

/// Whether a pair's length is no whole number of readings of its field, or more than there may be.
fn wrong_length(bytes: &[u8], field: Field, i: usize) -> bool {
    let width = width(field.ty) as u64;
    !length(bytes, i).is_multiple_of(width) || length(bytes, i) > width * MOST_READINGS as u64
}

/// Whether a pair's part does not end within the file.
fn runs_past(bytes: &[u8], i: usize) -> bool {
    end(bytes, i) > bytes.len() as u64
}

/// Where a pair's part ends, by what the pair says.
fn end(bytes: &[u8], i: usize) -> u64 {
    offset(bytes, i) + length(bytes, i)
}

fn offset(bytes: &[u8], i: usize) -> u64 {
    number_at(bytes, 8 * i)
}

fn length(bytes: &[u8], i: usize) -> u64 {
    number_at(bytes, 8 * i + 4)
}

/// The number of 4 bytes at a place; bytes that the file does not have count as 0.
fn number_at(bytes: &[u8], at: usize) -> u64 {
    (at..at + 4).rev().fold(0, |number, place| number << 8 | u64::from(bytes.get(place).copied().unwrap_or(0)))
}
