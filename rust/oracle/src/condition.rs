//! The condition file: its reader, its writer and the listing.
//!
//! A node is held as the little-endian number of its 8 bytes: the kind in bits
//! 0 to 7, the type in 8 to 15, the field number in 16 to 31 and the immediate
//! or n in 32 to 63.

use crate::fields::{entries, of_entries, Field, ENTRY};
use crate::recipe::{word, MOST_FIELDS};
use crate::types::{immediate, is_signed, ADD, CONSTANT, CONVERT, DIVIDE, MULTIPLY, SUBTRACT, TYPES};
use std::cmp::Ordering;
use std::fmt::Write;

pub const MOST_CONJUNCTS: usize = 64;
pub const MOST_NODES: usize = 120;

/// The kind of a node that reads a field. (1 is a copy among statements.)
pub const READING: u8 = 1;

#[must_use]
pub fn node(kind: u8, ty: u8, field: u16, rest: u32) -> u64 {
    u64::from(kind) | u64::from(ty) << 8 | u64::from(field) << 16 | u64::from(rest) << 32
}

#[must_use]
pub fn kind(node: u64) -> u8 {
    node as u8
}

#[must_use]
pub fn ty(node: u64) -> u8 {
    (node >> 8) as u8
}

#[must_use]
pub fn field(node: u64) -> usize {
    (node >> 16) as u16 as usize
}

/// The immediate or n.
#[must_use]
pub fn rest(node: u64) -> u32 {
    (node >> 32) as u32
}

/// A condition that was read: its fields and its conjuncts.
pub struct Condition {
    pub fields: Vec<Field>,
    pub conjuncts: Vec<Vec<u64>>,
}

/// The order of conjuncts in a file: by node count, then by bytes.
#[must_use]
pub fn file_order(left: &[u64], right: &[u64]) -> Ordering {
    let bytes = |nodes: &[u64], i: usize| nodes[i].swap_bytes();
    left.len().cmp(&right.len()).then_with(|| {
        let differing = (0..left.len()).find(|&i| left[i] != right[i]);
        differing.map_or(Ordering::Equal, |i| bytes(left, i).cmp(&bytes(right, i)))
    })
}

/// The file of conjuncts that stand in file order.
pub fn write(fields: &[Field], conjuncts: &[Vec<u64>]) -> Vec<u8> {
    let nodes: usize = conjuncts.iter().map(Vec::len).sum();
    let table_end = 8 + ENTRY * fields.len() + 8 * conjuncts.len();
    let mut file = Vec::with_capacity(table_end + 8 * nodes);
    file.extend((conjuncts.len() as u32).to_le_bytes());
    file.extend((fields.len() as u32).to_le_bytes());
    file.extend(entries(fields));
    let mut offset = table_end;
    for conjunct in conjuncts {
        file.extend((offset as u32).to_le_bytes());
        file.extend((8 * conjunct.len() as u32).to_le_bytes());
        offset += 8 * conjunct.len();
    }
    for node in conjuncts.iter().flatten() {
        file.extend(node.to_le_bytes());
    }
    file
}

impl Condition {
    /// Reads a condition file; everything out of form is 12.
    pub fn read(bytes: &[u8]) -> Result<Condition, u8> {
        read(bytes).ok_or(12)
    }
}

fn read(bytes: &[u8]) -> Option<Condition> {
    if bytes.len() < 8 {
        return None;
    }
    let count = word(bytes, 0) as usize;
    let number = word(bytes, 4) as usize;
    if count > MOST_CONJUNCTS || number > MOST_FIELDS {
        return None;
    }
    let table = 8 + ENTRY * number;
    let fields = of_entries(bytes.get(8..table)?)?;
    let mut start = table + 8 * count;
    if start > bytes.len() {
        return None;
    }
    let mut conjuncts: Vec<Vec<u64>> = Vec::with_capacity(count);
    for i in 0..count {
        let pair = table + 8 * i;
        let (offset, length) = (word(bytes, pair) as usize, word(bytes, pair + 4) as usize);
        if offset != start || length == 0 || length > 8 * MOST_NODES || length % 8 != 0 {
            return None;
        }
        let part = bytes.get(start..start + length)?;
        start += length;
        let nodes = part.chunks_exact(8).map(|n| u64::from_le_bytes(n.try_into().unwrap()));
        let conjunct: Vec<u64> = nodes.collect();
        if !well_formed(&conjunct, &fields) {
            return None;
        }
        if let Some(before) = conjuncts.last() {
            if file_order(before, &conjunct) != Ordering::Less {
                return None;
            }
        }
        conjuncts.push(conjunct);
    }
    (start == bytes.len()).then_some(Condition { fields, conjuncts })
}

/// Whether nodes are one whole expression in the form of document 01.
fn well_formed(nodes: &[u64], fields: &[Field]) -> bool {
    let mut stack: Vec<u8> = Vec::with_capacity(nodes.len());
    let mut appeared = [0u32; MOST_FIELDS];
    for &n in nodes {
        let ty = ty(n);
        if ty > 7 {
            return false;
        }
        let unused = match kind(n) {
            CONSTANT => field(n) == 0,
            READING => true,
            _ => field(n) == 0 && rest(n) == 0,
        };
        if !unused {
            return false;
        }
        match kind(n) {
            CONSTANT => {
                if immediate(ty, rest(n)).is_none() {
                    return false;
                }
            }
            READING => {
                if fields.get(field(n)).is_none_or(|field| field.ty != ty) {
                    return false;
                }
                let highest = &mut appeared[field(n)];
                if rest(n) == 0 || rest(n) > *highest + 1 {
                    return false;
                }
                *highest = rest(n).max(*highest);
            }
            ADD..=DIVIDE => {
                let (right, left) = (stack.pop(), stack.pop());
                if left != Some(ty) || right != Some(ty) {
                    return false;
                }
            }
            CONVERT => {
                if stack.pop().is_none() {
                    return false;
                }
            }
            _ => return false,
        }
        stack.push(ty);
    }
    stack.len() == 1
}

/// The listing of conjuncts that stand in file order.
#[must_use]
pub fn listing(conjuncts: &[Vec<u64>]) -> String {
    let mut text = format!("conjuncts {}\n", conjuncts.len());
    for (place, conjunct) in conjuncts.iter().enumerate() {
        let _ = write!(text, "{place}:");
        for &n in conjunct {
            let _ = match kind(n) {
                CONSTANT if is_signed(ty(n)) => write!(text, " {}", rest(n) as i32),
                CONSTANT => write!(text, " {}", rest(n)),
                READING => write!(text, " f{}<{}>", field(n), rest(n)),
                ADD => write!(text, " add"),
                SUBTRACT => write!(text, " sub"),
                MULTIPLY => write!(text, " mul"),
                DIVIDE => write!(text, " div"),
                _ => write!(text, " to"),
            };
            let _ = write!(text, ":{}", TYPES[ty(n) as usize].name);
        }
        text.push('\n');
    }
    text
}
