//! The recipe reader: checks 2 to 8 and 16, each over the whole recipe before the next.

use crate::blocks::Code;
use crate::fields::{Field, ENTRY};
use crate::procedures::{Misuse, Procedure, Written};
use crate::statements::Statement;
use crate::types::PROCEDURE;
use std::rc::Rc;

pub const LONGEST: usize = 8_416;
pub const MOST_FIELDS: usize = 32;
pub const MOST_VARIABLES: usize = 64;
pub const MOST_TRAYS: usize = 16;
pub const MOST_STATEMENTS: usize = 1_024;

#[derive(Clone, Copy, Debug)]
pub struct Tray {
    pub ty: u8,
    pub length: usize,
}

/// The form of a recipe's file: its most bytes, the size of a field's entry, and the field of an entry.
pub struct Form {
    pub longest: usize,
    pub entry: usize,
    pub field: fn(&[u8]) -> Option<Field>,
}

/// The form of today.
pub const FORM: Form = Form { longest: LONGEST, entry: ENTRY, field: |entry| Field::of_entry([entry[0], entry[1]]) };

/// A recipe that passed checks 2 to 8 and 16.
pub struct Recipe {
    pub fields: Vec<Field>,
    pub variables: Vec<u8>,
    pub trays: Vec<Tray>,
    /// The statements as the file has them, procedures among them.
    pub listed: Rc<Code>,
    /// The procedures in order of appearance.
    pub procedures: Vec<Procedure>,
    /// The label after the procedures.
    pub start: usize,
    /// The recipe with each call written out in place.
    pub written: Written,
}

/// The little-endian number at a place.
#[must_use]
pub fn word(bytes: &[u8], at: usize) -> u32 {
    u32::from_le_bytes([bytes[at], bytes[at + 1], bytes[at + 2], bytes[at + 3]])
}

impl Recipe {
    pub fn read(bytes: &[u8]) -> Result<Recipe, u8> {
        Recipe::of_form(bytes, &FORM)
    }

    /// A recipe of a form.
    pub fn of_form(bytes: &[u8], form: &Form) -> Result<Recipe, u8> {
        let (mut recipe, statements) = Recipe::before_blocks(bytes, form)?;
        recipe.listed = Rc::new(Code::matched(statements).ok_or(8)?);
        recipe.write_out().map_err(|_| 16)?;
        Ok(recipe)
    }

    /// Why a recipe is refused with 16, or nothing if it is not.
    #[must_use]
    pub fn misuse(bytes: &[u8]) -> Option<Misuse> {
        let (mut recipe, statements) = Recipe::before_blocks(bytes, &FORM).ok()?;
        recipe.listed = Rc::new(Code::matched(statements)?);
        recipe.write_out().err()
    }

    /// Check 16.
    fn write_out(&mut self) -> Result<(), Misuse> {
        self.part()?;
        self.written = Written::of(self)?;
        Ok(())
    }

    /// Checks 2 to 7: the recipe without its blocks, and its statements.
    fn before_blocks(bytes: &[u8], form: &Form) -> Result<(Recipe, Vec<Statement>), u8> {
        let (mut recipe, statements) = tables(bytes, form)?;
        let openings = statements.iter().enumerate().filter(|(_, s)| s.kind == PROCEDURE);
        recipe.procedures = openings.map(|(label, &s)| Procedure::opened(label, s)).collect();
        if !statements.iter().all(|&s| recipe.operands_right(s)) {
            return Err(5);
        }
        if !statements.iter().all(|&s| recipe.types_agree(s)) {
            return Err(6);
        }
        if !statements.iter().all(|&s| recipe.immediate_fits(s)) {
            return Err(7);
        }
        Ok((recipe, statements))
    }
}

/// Checks 2 to 4: the tables, and the statements as they lie in the file.
fn tables(bytes: &[u8], form: &Form) -> Result<(Recipe, Vec<Statement>), u8> {
    let [fields, variables, trays, statements] = sections(bytes, form).ok_or(2)?;
    if fields.len() / form.entry > MOST_FIELDS
        || variables.len() > MOST_VARIABLES
        || trays.len() / 4 > MOST_TRAYS
        || statements.len() / 8 > MOST_STATEMENTS
    {
        return Err(3);
    }
    let trays: Vec<Tray> = trays.chunks_exact(4).map(tray).collect::<Option<_>>().ok_or(4)?;
    let fields: Vec<Field> = fields.chunks_exact(form.entry).map(form.field).collect::<Option<_>>().ok_or(4)?;
    if variables.iter().any(|&ty| ty > 7) {
        return Err(4);
    }
    let recipe = Recipe {
        fields,
        variables: variables.to_vec(),
        trays,
        listed: Rc::default(),
        procedures: Vec::new(),
        start: 0,
        written: Written::default(),
    };
    Ok((recipe, statements.chunks_exact(8).map(Statement::of_bytes).collect()))
}

/// Check 2: the four sections, or nothing if the length or the table is wrong.
fn sections<'a>(bytes: &'a [u8], form: &Form) -> Option<[&'a [u8]; 4]> {
    if bytes.len() < 32 || bytes.len() > form.longest {
        return None;
    }
    let mut found = [&bytes[..0]; 4];
    let mut start = 32;
    for (i, size) in [form.entry, 1, 4, 8].into_iter().enumerate() {
        let offset = word(bytes, 8 * i) as usize;
        let length = word(bytes, 8 * i + 4) as usize;
        if offset != start || length > bytes.len() - start || !length.is_multiple_of(size) {
            return None;
        }
        found[i] = &bytes[start..start + length];
        start += length;
    }
    (start == bytes.len()).then_some(found)
}

/// One tray of check 4.
fn tray(bytes: &[u8]) -> Option<Tray> {
    let length = u16::from_le_bytes([bytes[2], bytes[3]]) as usize;
    let right = bytes[0] <= 7 && bytes[1] == 0 && (1..=256).contains(&length);
    right.then_some(Tray { ty: bytes[0], length })
}
