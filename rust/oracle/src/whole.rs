//! The whole-number run of demand 3.
//!
//! It takes the steps of the run, decided by the wrapped values, over the recipe
//! with each call written out in place. Beside each
//! variable and cell it keeps what its value was made from: a number given by an
//! immediate or a reading, or an arithmetic step or conversion on such makings.
//! A making stands for the whole number and for the set of places: the number
//! is worked out from it, and the set is the steps that it goes back to, since
//! each arithmetic step and conversion adds one making of its own. So only what
//! reaches a site is ever worked out.

use crate::bigint::BigInt;
use crate::procedures::Origin;
use crate::recipe::Recipe;
use crate::sheet::Sheet;
use crate::types::{
    fits, immediate, number, wrap, wrapping, ADD, CONSTANT, CONVERT, COPY, DIVIDE, ELSE, END, LOAD, MULTIPLY, READ,
    SITE, STORE, SUBTRACT,
};

/// A noted value: the site's label, the whole number, and the places in its set
/// whose step overflowed on its wrapped operands.
#[derive(Clone, Debug, PartialEq, Eq)]
pub struct Noted {
    pub label: u16,
    pub number: BigInt,
    pub overflows: u32,
}

/// One making. Those it refers to stand before it.
#[derive(Clone, Copy)]
enum Making {
    Given(i128),
    Worked { kind: u8, left: usize, right: usize, overflowed: bool },
}

/// A run's makings, and the label and making of each site taken.
struct Trace {
    makings: Vec<Making>,
    sites: Vec<(u16, usize)>,
}

/// The notes of the whole-number run, or the refusal 2 to 8, 16 or 13.
pub fn whole_run(recipe: &[u8], sheet: &[u8], limit: u32, choices: &[u8], log_len: usize) -> Result<Vec<Noted>, u8> {
    let trace = trace(recipe, sheet, limit, choices, log_len)?;
    let numbers = trace.numbers();
    let mut notes = Vec::with_capacity(trace.sites.len());
    for (&(label, making), overflows) in trace.sites.iter().zip(trace.overflows()) {
        notes.push(Noted { label, number: numbers[making].clone(), overflows });
    }
    Ok(notes)
}

/// A bound on the bits of any number that the whole-number run works out, found
/// without working them out. Numbers can double in length with each step, so
/// tests ask this first and pass over runs that no memory would hold.
pub fn whole_bits(recipe: &[u8], sheet: &[u8], limit: u32, choices: &[u8], log_len: usize) -> Result<u64, u8> {
    let trace = trace(recipe, sheet, limit, choices, log_len)?;
    let needed = trace.needed();
    let mut bits: Vec<u64> = Vec::with_capacity(trace.makings.len());
    for making in &trace.makings {
        bits.push(match *making {
            Making::Given(number) => 128 - u64::from(number.unsigned_abs().leading_zeros()),
            Making::Worked { kind, left, right, .. } => match kind {
                ADD | SUBTRACT => bits[left].max(bits[right]).saturating_add(1),
                MULTIPLY => bits[left].saturating_add(bits[right]),
                _ => bits[left],
            },
        });
    }
    Ok(bits.iter().zip(needed).filter(|(_, n)| *n).map(|(b, _)| *b).max().unwrap_or(0))
}

/// A variable or cell: its wrapped value and the place of its making.
#[derive(Clone, Copy, Default)]
struct Kept {
    held: u64,
    making: usize,
}

fn trace(recipe: &[u8], sheet: &[u8], limit: u32, choices: &[u8], log_len: usize) -> Result<Trace, u8> {
    let recipe = Recipe::read(recipe)?;
    let sheet = Sheet::read(sheet, &recipe.fields)?;
    // Making 0 is the number 0 that everything starts with.
    let mut trace = Trace { makings: vec![Making::Given(0)], sites: Vec::new() };
    let written = &recipe.written;
    let code = &written.code;
    let mut variables = vec![Kept::default(); written.variables.len()];
    let mut trays: Vec<Vec<Kept>> = recipe.trays.iter().map(|tray| vec![Kept::default(); tray.length]).collect();
    let mut steps = 0u32;
    let mut reads = 0;
    let mut place = 0;
    while place < code.statements.len() {
        let s = &code.statements[place];
        let block = code.block[place].map(|b| &code.blocks[b]);
        let (a, b, c) = (s.a as usize, s.b as usize, s.c as usize);
        // Else and end are no steps.
        if s.kind == ELSE {
            place = block.unwrap().end + 1;
            continue;
        }
        if s.kind == END {
            let block = block.unwrap();
            place = if block.middle.is_some() { place + 1 } else { block.open };
            continue;
        }
        let origin = written.origins[place];
        if origin != Origin::Silent && steps == limit {
            break;
        }
        let index = |variables: &[Kept], variable: usize, tray: usize| {
            (variables[variable].held % recipe.trays[tray].length as u64) as usize
        };
        match s.kind {
            CONSTANT => {
                let ty = written.variables[a];
                let held = immediate(ty, s.immediate).unwrap();
                variables[a] = Kept { held, making: trace.push(Making::Given(number(ty, held))) };
            }
            COPY => variables[a] = variables[b],
            ADD..=DIVIDE => {
                let (left, right) = (variables[b], variables[c]);
                let ty = written.variables[a];
                let (held, overflowed) = wrapping(s.kind, ty, left.held, right.held);
                let (left, right) = (left.making, right.making);
                let worked = Making::Worked { kind: s.kind, left, right, overflowed };
                variables[a] = Kept { held, making: trace.push(worked) };
            }
            CONVERT => {
                let Kept { held, making } = variables[b];
                let (from, to) = (written.variables[b], written.variables[a]);
                let overflowed = !fits(from, to, held);
                let worked = Making::Worked { kind: CONVERT, left: making, right: making, overflowed };
                variables[a] = Kept { held: wrap(to, held), making: trace.push(worked) };
            }
            READ => {
                let readings = sheet.readings(b);
                if readings.is_empty() {
                    break;
                }
                let Some(choice) = choices.get(2 * reads..2 * reads + 2) else { break };
                let choice = u16::from_le_bytes([choice[0], choice[1]]) as usize;
                let held = readings[choice % readings.len()];
                let given = Making::Given(number(recipe.fields[b].ty, held));
                variables[a] = Kept { held, making: trace.push(given) };
                reads += 1;
            }
            LOAD => variables[a] = trays[b][index(&variables, c, b)],
            STORE => trays[a][index(&variables, b, a)] = variables[c],
            SITE => {
                if trace.sites.len() == log_len / 12 {
                    break;
                }
                let Origin::Step(label) = origin else { unreachable!("a site is a step") };
                trace.sites.push((label, variables[a].making));
            }
            _ => {
                if variables[a].held == 0 {
                    let block = block.unwrap();
                    place = block.middle.unwrap_or(block.end);
                }
            }
        }
        steps += u32::from(origin != Origin::Silent);
        place += 1;
    }
    Ok(trace)
}

impl Trace {
    fn push(&mut self, making: Making) -> usize {
        self.makings.push(making);
        self.makings.len() - 1
    }

    /// Which makings some site's value goes back to.
    fn needed(&self) -> Vec<bool> {
        let mut needed = vec![false; self.makings.len()];
        for &(_, making) in &self.sites {
            needed[making] = true;
        }
        for place in (0..needed.len()).rev() {
            if let (true, Making::Worked { left, right, .. }) = (needed[place], self.makings[place]) {
                needed[left] = true;
                needed[right] = true;
            }
        }
        needed
    }

    /// The whole number of each making that is needed, and 0 for the others.
    fn numbers(&self) -> Vec<BigInt> {
        let needed = self.needed();
        let mut numbers: Vec<BigInt> = Vec::with_capacity(self.makings.len());
        for (place, making) in self.makings.iter().enumerate() {
            numbers.push(match *making {
                _ if !needed[place] => BigInt::zero(),
                Making::Given(number) => BigInt::from(number),
                Making::Worked { kind, left, right, .. } => {
                    let (left, right) = (&numbers[left], &numbers[right]);
                    match kind {
                        ADD => left.add(right),
                        SUBTRACT => left.subtract(right),
                        MULTIPLY => left.multiply(right),
                        DIVIDE => left.divide(right).unwrap_or_default(),
                        _ => left.clone(),
                    }
                }
            });
        }
        numbers
    }

    /// For each site, how many of the steps that its value goes back to overflowed.
    fn overflows(&self) -> Vec<u32> {
        // Whether anything that a making goes back to overflowed; the search
        // below need not look past the others.
        let mut tainted: Vec<bool> = Vec::with_capacity(self.makings.len());
        for making in &self.makings {
            tainted.push(match *making {
                Making::Given(_) => false,
                Making::Worked { left, right, overflowed, .. } => overflowed || tainted[left] || tainted[right],
            });
        }
        let mut seen_for = vec![usize::MAX; self.makings.len()];
        let mut counts = Vec::with_capacity(self.sites.len());
        for (site, &(_, making)) in self.sites.iter().enumerate() {
            let mut count = 0;
            let mut left_to_see = vec![making];
            while let Some(place) = left_to_see.pop() {
                if !tainted[place] || seen_for[place] == site {
                    continue;
                }
                seen_for[place] = site;
                if let Making::Worked { left, right, overflowed, .. } = self.makings[place] {
                    count += u32::from(overflowed);
                    left_to_see.push(left);
                    left_to_see.push(right);
                }
            }
            counts.push(count);
        }
        counts
    }
}
