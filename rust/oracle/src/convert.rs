//! The conversion of recipes of the form before document 02's Card 5: a field's entry is its type alone, and a file
//! has at most 8,384 bytes.

use crate::build::{of_parts, sections};
use crate::fields::{entries, whole, Field};
use crate::recipe::{Form, Recipe};

pub const OLD: Form = Form { longest: 8_384, entry: 1, field: old_field };

fn old_field(entry: &[u8]) -> Option<Field> {
    (entry[0] <= 7).then(|| Field::whole(entry[0]))
}

/// The recipe in today's form, its fields with all bits of their types, or the refusal 2 to 8 or 16 of the old form.
pub fn convert(old: &[u8]) -> Result<Vec<u8>, u8> {
    Recipe::of_form(old, &OLD)?;
    let [types, variables, trays, statements] = sections(old);
    Ok(of_parts(&[entries(&whole(&types)), variables, trays, statements]))
}
