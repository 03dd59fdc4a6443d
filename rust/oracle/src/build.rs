//! Recipes, conjuncts and sheets by their parts, for tests and benchmarks.

use crate::condition::{node, READING};
use crate::fields::{entries, whole};
use crate::recipe::word;
use crate::types::{ADD, CALL, CONSTANT, CONVERT, DIVIDE, MULTIPLY, PROCEDURE, SUBTRACT, TYPES};

/// The recipe file of its four sections; the fields have all bits of these types.
#[must_use]
pub fn recipe(types: &[u8], variables: &[u8], trays: &[[u8; 4]], statements: &[[u8; 8]]) -> Vec<u8> {
    of_parts(&[&entries(&whole(types)), variables, &trays.concat(), &statements.concat()])
}

/// The four sections of a recipe file whose table is right.
#[must_use]
pub fn sections(recipe: &[u8]) -> [Vec<u8>; 4] {
    [0, 1, 2, 3].map(|i| {
        let (offset, length) = (word(recipe, 8 * i) as usize, word(recipe, 8 * i + 4) as usize);
        recipe[offset..offset + length].to_vec()
    })
}

/// The sheet file of the bytes of each field's readings.
#[must_use]
pub fn sheet(fields: &[&[u8]]) -> Vec<u8> {
    of_parts(fields)
}

/// A file of parts: the offset and length of each, then the parts without gaps.
#[must_use]
pub fn of_parts(parts: &[impl AsRef<[u8]>]) -> Vec<u8> {
    let mut file = Vec::new();
    let mut offset = 8 * parts.len();
    for part in parts {
        let length = part.as_ref().len();
        file.extend((offset as u32).to_le_bytes());
        file.extend((length as u32).to_le_bytes());
        offset += length;
    }
    for part in parts {
        file.extend(part.as_ref());
    }
    file
}

/// A statement without an immediate.
#[must_use]
pub fn s(kind: u8, a: u8, b: u8, c: u8) -> [u8; 8] {
    [kind, a, b, c, 0, 0, 0, 0]
}

/// A variable set to a number.
#[must_use]
pub fn constant(a: u8, value: i64) -> [u8; 8] {
    let v = (value as u32).to_le_bytes();
    [0, a, 0, 0, v[0], v[1], v[2], v[3]]
}

/// The opening of a procedure: its parameters, its first own variable and how many it has.
#[must_use]
pub fn procedure(parameters: u8, first: u8, count: u8) -> [u8; 8] {
    s(PROCEDURE, parameters, first, count)
}

/// A call: its target, the number of the procedure and the arguments, at most four.
#[must_use]
pub fn call(target: u8, procedure: u8, arguments: &[u8]) -> [u8; 8] {
    let mut statement = s(CALL, target, procedure, 0);
    statement[4..4 + arguments.len()].copy_from_slice(arguments);
    statement
}

/// A conjunct from the words of its listing. A word without a type has the one given.
///
/// # Panics
/// If a word is none of a listing's.
#[must_use]
pub fn conjunct(ty: u8, listed: &str) -> Vec<u64> {
    listed.split_whitespace().map(|word| listed_node(ty, word).unwrap_or_else(|| panic!("{word}"))).collect()
}

fn listed_node(usual: u8, word: &str) -> Option<u64> {
    let (word, ty) = match word.split_once(':') {
        Some((word, name)) => (word, TYPES.iter().position(|ty| ty.name == name)? as u8),
        None => (word, usual),
    };
    let operation = |kind: u8| node(kind, ty, 0, 0);
    Some(match word {
        "add" => operation(ADD),
        "sub" => operation(SUBTRACT),
        "mul" => operation(MULTIPLY),
        "div" => operation(DIVIDE),
        "to" => operation(CONVERT),
        word => match word.strip_prefix('f') {
            Some(atom) => {
                let (field, n) = atom.strip_suffix('>')?.split_once('<')?;
                node(READING, ty, field.parse().ok()?, n.parse().ok()?)
            }
            None => node(CONSTANT, ty, 0, word.parse::<i64>().ok()? as u32),
        },
    })
}
