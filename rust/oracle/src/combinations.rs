//! Made-up conjuncts with several atoms and many combinations of readings, the same for the same seed: few
//! readings of many atoms, many of few, atoms first or spread out.

use crate::build::of_parts;
use crate::condition::{kind, node, write, READING};
use crate::fields::whole;
use crate::generate::Rng;
use crate::types::{is_signed, width, ADD, CONSTANT, CONVERT, DIVIDE, MULTIPLY, SUBTRACT};

const MOST: usize = 40_000;

/// A condition of one conjunct, a sheet, and the conjunct's combinations.
pub struct Case {
    pub condition: Vec<u8>,
    pub sheet: Vec<u8>,
    pub combinations: usize,
}

/// The fields of a sheet, how many atoms of each a conjunct has so far, and its combinations.
struct Fields {
    types: Vec<u8>,
    counts: Vec<usize>,
    highest: Vec<usize>,
    product: usize,
}

/// A conjunct of small numbers, so that most sheets pass; now and then a reading is large, or a divisor may be 0.
pub fn case(rng: &mut Rng) -> Case {
    let mut fields = Fields::new(rng);
    let mut nodes = Vec::new();
    let size = rng.between(2, 119);
    let ty = rng.pick(&fields.types);
    fields.expression(rng, ty, size, &mut nodes);
    let condition = write(&whole(&fields.types), &[nodes]);
    Case { condition, sheet: fields.sheet(rng), combinations: fields.product }
}

impl Fields {
    fn new(rng: &mut Rng) -> Fields {
        let most = rng.pick(&[2, 3, 4, 9, 40, 128]);
        let number = rng.between(1, 4);
        let some: &[u8] = rng.pick(&[&[2, 3, 3], &[6, 7, 7], &[1, 2, 3, 5, 6, 7]]);
        let types = (0..number).map(|_| rng.pick(some)).collect();
        let counts = (0..number).map(|_| rng.between(1, most)).collect();
        Fields { types, counts, highest: vec![0; number], product: 1 }
    }

    /// The readings: small ones, and now and then a large one.
    fn sheet(&self, rng: &mut Rng) -> Vec<u8> {
        let large = usize::from(rng.chance(50));
        let mut fields: Vec<Vec<u8>> = Vec::new();
        for (&ty, &count) in self.types.iter().zip(&self.counts) {
            let mut readings = Vec::new();
            for _ in 0..count {
                let minus = if is_signed(ty) { 20 } else { 0 };
                let mut value = rng.below(60) as i64 - minus;
                if rng.chance(large) {
                    value = rng.pick(&[i64::MAX, i64::MIN, -1, 0, 200, 40_000]);
                }
                readings.extend(&value.to_le_bytes()[..width(ty)]);
            }
            fields.push(readings);
        }
        of_parts(&fields)
    }

    /// A node without operands: a reading of a field of the type, if one can be had, or a constant.
    fn leaf(&mut self, rng: &mut Rng, ty: u8) -> u64 {
        let field = rng.below(self.types.len());
        let highest = self.highest[field];
        let fresh = self.product * self.counts[field] <= MOST && (highest == 0 || rng.chance(50));
        if self.types[field] == ty && (fresh || highest > 0) && rng.chance(70) {
            let n = if fresh { highest + 1 } else { rng.between(1, highest) };
            if fresh {
                self.highest[field] = n;
                self.product *= self.counts[field];
            }
            return node(READING, ty, field as u16, n as u32);
        }
        node(CONSTANT, ty, 0, rng.between(1, 5) as u32)
    }

    /// An expression of so many nodes.
    fn expression(&mut self, rng: &mut Rng, ty: u8, size: usize, nodes: &mut Vec<u64>) {
        if size == 1 {
            nodes.push(self.leaf(rng, ty));
        } else if size == 2 || rng.chance(15) {
            let from = rng.pick(&self.types);
            self.expression(rng, from, size - 1, nodes);
            nodes.push(node(CONVERT, ty, 0, 0));
        } else {
            let left = if rng.chance(60) { size - 2 } else { rng.between(1, size - 2) };
            self.expression(rng, ty, left, nodes);
            self.expression(rng, ty, size - 1 - left, nodes);
            let by_constant = nodes.last().is_some_and(|&n| kind(n) == CONSTANT);
            let minus = if is_signed(ty) { SUBTRACT } else { ADD };
            let kinds = if by_constant {
                [ADD, ADD, DIVIDE, DIVIDE, MULTIPLY, minus]
            } else if rng.chance(1) {
                [DIVIDE; 6]
            } else {
                [ADD, ADD, ADD, ADD, ADD, minus]
            };
            nodes.push(node(rng.pick(&kinds), ty, 0, 0));
        }
    }
}
