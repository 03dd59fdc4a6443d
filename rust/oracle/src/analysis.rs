//! The analysis: walks backward from each site and gives the condition. It
//! goes over the recipe with each call written out in place.
//!
//! A conjunct is its nodes in postfix, held as in `condition`, with two further
//! kinds of atoms during the walk: variables, with their number in the place of
//! the field number, and loaded values, with the load's label there and with n.

use crate::blocks::{Block, Code};
use crate::condition::{field, file_order, kind, node, ty, MOST_CONJUNCTS, MOST_NODES, READING};
use crate::recipe::{Recipe, Tray, MOST_VARIABLES};
use crate::statements::Statement;
use crate::types::{ADD, CONSTANT, CONVERT, COPY, DIVIDE, END, LOAD, READ, SITE, STORE, WHILE};
use std::cell::Cell;
use std::cmp::Ordering;

/// Node kinds that occur only during the walk.
const VARIABLE: u8 = 7;
const LOADED: u8 = 8;

/// What the analysis gives up at: nodes of a conjunct (9), conjuncts of a set (10), rounds of a while (11).
#[derive(Clone, Copy, Debug)]
pub struct Limits {
    pub nodes: usize,
    pub conjuncts: usize,
    pub rounds: usize,
}

/// The limits of document 01.
pub const LIMITS: Limits = Limits { nodes: MOST_NODES, conjuncts: MOST_CONJUNCTS, rounds: 16 };

type Conjunct = Vec<u64>;

/// A set of conjuncts: sorted, each once. `variables` and `trays` have a bit for
/// each variable and for each tray with a loaded value that occurs in them, so
/// that a statement that concerns none is passed over at once. Variables whose
/// numbers are equal modulo 64 share a bit.
#[derive(Clone, Default)]
struct Set {
    conjuncts: Vec<Conjunct>,
    variables: u64,
    trays: u16,
}

/// Any fixed order does during the walk; lengths first is quick.
fn order(left: &Conjunct, right: &Conjunct) -> Ordering {
    left.len().cmp(&right.len()).then_with(|| left.cmp(right))
}

/// The conjuncts of a recipe in file order, or the refusal 9, 10 or 11, word by word as document 01 has it.
pub fn conjuncts(recipe: &Recipe) -> Result<Vec<Conjunct>, u8> {
    within(recipe, LIMITS, false)
}

/// The same by way of shortcuts, which only ever say yes: a while walks what is new in each round, and is
/// confirmed by one round on all of it; a site that repeats an earlier one is passed over.
pub fn quickly(recipe: &Recipe) -> Result<Vec<Conjunct>, u8> {
    within(recipe, LIMITS, true)
}

/// The conjuncts within other limits, word by word or by way of the shortcuts.
pub fn within(recipe: &Recipe, limits: Limits, quick: bool) -> Result<Vec<Conjunct>, u8> {
    Walk::new(recipe, limits, quick, &[]).sites()
}

/// How often the body of each while is walked, by the place of the while in the written-out recipe.
pub fn walks(recipe: &Recipe, limits: Limits, quick: bool) -> Vec<u64> {
    let walked = vec![Cell::new(0); recipe.written.code.statements.len()];
    // A refusal ends the walks that are counted.
    let _ = Walk::new(recipe, limits, quick, &walked).sites();
    walked.into_iter().map(Cell::into_inner).collect()
}

/// What the left set has and the right one has not.
fn minus(left: Set, right: &Set) -> Set {
    let has = |conjunct: &Conjunct| right.conjuncts.binary_search_by(|c| order(c, conjunct)).is_ok();
    Set { conjuncts: left.conjuncts.into_iter().filter(|c| !has(c)).collect(), ..left }
}

/// Renumbers the atoms of a conjunct: n counts from 1 by first appearance.
fn renumber(conjunct: &mut [u64]) {
    // Atoms met so far, as they were and as they are now. A conjunct of 120
    // nodes has at most 60 atoms.
    let mut before = [0u64; 64];
    let mut after = [0u64; 64];
    let mut met = 0;
    for n in conjunct.iter_mut() {
        if kind(*n) != READING && kind(*n) != LOADED {
            continue;
        }
        let place = before[..met].iter().position(|b| b == n).unwrap_or_else(|| {
            let nameless = *n as u32;
            let same = after[..met].iter().filter(|&&a| a as u32 == nameless).count();
            before[met] = *n;
            after[met] = u64::from(nameless) | (same as u64 + 1) << 32;
            met += 1;
            met - 1
        });
        *n = after[place];
    }
}

/// Replaces a node wherever it occurs by one other node; false if it does not occur.
fn swap(conjunct: &mut [u64], old: u64, new: u64) -> bool {
    let mut found = false;
    for n in conjunct.iter_mut() {
        if *n == old {
            *n = new;
            found = true;
        }
    }
    found
}

/// Replaces a node wherever it occurs by several nodes; 9 if the conjunct gets longer than `most`.
fn expand(conjunct: &mut Conjunct, old: u64, new: &[u64], most: usize) -> Result<bool, u8> {
    let found = conjunct.iter().filter(|&&n| n == old).count();
    if found == 0 {
        return Ok(false);
    }
    let mut from = conjunct.len();
    let mut to = from + found * (new.len() - 1);
    if to > most {
        return Err(9);
    }
    // From the back, so that nothing is written over before it is moved.
    conjunct.resize(to, 0);
    while from < to {
        from -= 1;
        if conjunct[from] == old {
            to -= new.len();
            conjunct[to..to + new.len()].copy_from_slice(new);
        } else {
            to -= 1;
            conjunct[to] = conjunct[from];
        }
    }
    Ok(true)
}

impl Set {
    /// Applies a change to every conjunct and restores order; the change says
    /// whether it did anything, and so does this.
    fn change(&mut self, mut f: impl FnMut(&mut Conjunct) -> Result<bool, u8>) -> Result<bool, u8> {
        let mut changed = false;
        for conjunct in &mut self.conjuncts {
            changed |= f(conjunct)?;
        }
        if changed && self.conjuncts.len() > 1 {
            self.conjuncts.sort_unstable_by(order);
            self.conjuncts.dedup();
        }
        Ok(changed)
    }

    /// The bits of the variables that occur.
    fn occurring(&self) -> u64 {
        let nodes = self.conjuncts.iter().flatten();
        nodes.filter(|&&n| kind(n) == VARIABLE).fold(0, |bits, &n| bits | bit(field(n) as u16))
    }
}

/// The bit of a variable.
fn bit(variable: u16) -> u64 {
    1 << (variable & 63)
}

/// How a piece is walked: as document 01 has it, or lightly, its whiles by what is new alone. A light walk
/// meets the same sets, but its refusals say nothing.
#[derive(Clone, Copy, PartialEq)]
enum Way {
    Word,
    Light,
}

struct Walk<'a> {
    code: &'a Code,
    /// The types of the variables.
    types: &'a [u8],
    trays: &'a [Tray],
    limits: Limits,
    quick: bool,
    /// For each label how often the body of its while was walked, or nothing where it is not counted.
    walked: &'a [Cell<u64>],
}

impl<'a> Walk<'a> {
    fn new(recipe: &'a Recipe, limits: Limits, quick: bool, walked: &'a [Cell<u64>]) -> Walk<'a> {
        let written = &recipe.written;
        Walk { code: &written.code, types: &written.variables, trays: &recipe.trays, limits, quick, walked }
    }

    /// The set of all sites, in file order.
    fn sites(&self) -> Result<Vec<Conjunct>, u8> {
        let mut all = Set::default();
        let mut last = vec![None; self.types.len()];
        for (label, s) in self.code.statements.iter().enumerate() {
            if s.kind == SITE {
                let earlier = last[s.a as usize].replace(label);
                if self.quick && earlier.is_some_and(|earlier| self.repeats(earlier, label)) {
                    continue;
                }
                let set = self.site(label)?;
                all = self.union(&all, set)?;
            }
        }
        all.conjuncts.sort_unstable_by(|l, r| file_order(l, r));
        Ok(all.conjuncts)
    }

    /// The set of one site at the recipe's start.
    fn site(&self, label: usize) -> Result<Set, u8> {
        let variable = self.code.statements[label].a;
        let mut set = Set { conjuncts: vec![vec![self.variable(variable)]], variables: bit(variable), trays: 0 };
        let mut at = label;
        let mut inside = self.code.inside[label];
        while let Some(block) = inside {
            let block = &self.code.blocks[block];
            let start = match block.middle {
                Some(middle) if middle < at => middle + 1,
                _ => block.open + 1,
            };
            set = self.back(start, at, set, Way::Word)?;
            if self.code.statements[block.open].kind == WHILE {
                set = self.settle(block, &set, Way::Word)?;
            }
            at = block.open;
            inside = self.code.inside[at];
        }
        set = self.back(0, at, set, Way::Word)?;
        Self::start(set)
    }

    /// Walks back from the label `at` to the label `start` of the same block.
    fn back(&self, start: usize, mut at: usize, mut set: Set, way: Way) -> Result<Set, u8> {
        while at > start {
            at -= 1;
            if self.code.statements[at].kind == END {
                let block = &self.code.blocks[self.code.block[at].unwrap()];
                set = match block.middle {
                    Some(middle) => {
                        let yes = self.back(block.open + 1, middle, set.clone(), way)?;
                        let no = self.back(middle + 1, block.end, set, way)?;
                        self.union(&yes, no)?
                    }
                    None => self.settle(block, &set, way)?,
                };
                at = block.open;
            } else {
                self.statement(at, &mut set)?;
            }
        }
        Ok(set)
    }

    /// The whole of a while, from the set after it.
    fn settle(&self, block: &Block, after: &Set, way: Way) -> Result<Set, u8> {
        if way == Way::Light {
            return self.closure(block, after);
        }
        if self.quick {
            if let Ok(set) = self.closure(block, after) {
                if self.body(block, set.clone(), Way::Word).is_ok() {
                    return Ok(set);
                }
            }
        }
        self.rounds(block, after)
    }

    /// S(0) is the set after the while, S(k+1) is S(0) joined with the body's walk of S(k); the first S(k)
    /// equal to S(k-1), k from 1 to 16, is the result.
    fn rounds(&self, block: &Block, after: &Set) -> Result<Set, u8> {
        let mut last = after.clone();
        for _ in 0..self.limits.rounds {
            let body = self.body(block, last.clone(), Way::Word)?;
            let next = self.union(after, body)?;
            if next.conjuncts == last.conjuncts {
                return Ok(next);
            }
            last = next;
        }
        Err(11)
    }

    /// The same sets where each round walks only what is new.
    fn closure(&self, block: &Block, after: &Set) -> Result<Set, u8> {
        let mut all = after.clone();
        let mut new = after.clone();
        for _ in 0..self.limits.rounds {
            let body = self.body(block, new, Way::Light)?;
            new = minus(body, &all);
            if new.conjuncts.is_empty() {
                return Ok(all);
            }
            all = self.union(&all, new.clone())?;
        }
        Err(11)
    }

    /// One walk of a while's body.
    fn body(&self, block: &Block, set: Set, way: Way) -> Result<Set, u8> {
        if let Some(times) = self.walked.get(block.open) {
            times.set(times.get() + 1);
        }
        self.back(block.open + 1, block.end, set, way)
    }

    /// Whether a site repeats an earlier one on the same variable: what stands between is plain and does not
    /// write it.
    fn repeats(&self, earlier: usize, label: usize) -> bool {
        let variable = self.code.statements[label].a;
        self.code.statements[earlier + 1..label]
            .iter()
            .all(|s| s.kind == STORE || s.kind == SITE || s.kind < STORE && s.a != variable)
    }

    /// The union of two sets, tested for their number (10).
    fn union(&self, left: &Set, right: Set) -> Result<Set, u8> {
        let mut conjuncts = Vec::with_capacity(left.conjuncts.len() + right.conjuncts.len());
        let mut from_left = left.conjuncts.iter().peekable();
        for conjunct in right.conjuncts {
            while let Some(smaller) = from_left.next_if(|l| order(l, &conjunct) == Ordering::Less) {
                conjuncts.push(smaller.clone());
            }
            from_left.next_if(|l| **l == conjunct);
            conjuncts.push(conjunct);
        }
        conjuncts.extend(from_left.cloned());
        if conjuncts.len() > self.limits.conjuncts {
            return Err(10);
        }
        let variables = left.variables | right.variables;
        Ok(Set { conjuncts, variables, trays: left.trays | right.trays })
    }

    /// Adds a conjunct unless the set has it; 10 if it is one too many.
    fn insert(&self, conjuncts: &mut Vec<Conjunct>, conjunct: Conjunct) -> Result<(), u8> {
        if let Err(place) = conjuncts.binary_search_by(|c| order(c, &conjunct)) {
            if conjuncts.len() == self.limits.conjuncts {
                return Err(10);
            }
            conjuncts.insert(place, conjunct);
        }
        Ok(())
    }

    /// The rule of one statement. Kinds 0 to 6 put in no atoms with n and leave
    /// those present in their order, so they need no renumbering.
    fn statement(&self, label: usize, set: &mut Set) -> Result<(), u8> {
        let s = self.code.statements[label];
        if s.kind == STORE {
            return self.store(s, set);
        }
        if s.kind > LOAD || set.variables & bit(s.a) == 0 {
            return Ok(());
        }
        let found = self.replace(label, s, set)?;
        if self.types.len() > MOST_VARIABLES {
            // The bit may be another variable's as well.
            if found {
                set.variables = set.occurring();
            }
            return Ok(());
        }
        set.variables &= !bit(s.a);
        if found {
            set.variables |= match s.kind {
                COPY | CONVERT => bit(s.b),
                ADD..=DIVIDE => bit(s.b) | bit(s.c),
                _ => 0,
            };
        }
        Ok(())
    }

    /// Replaces the variable that a statement of kind 0 to 8 sets by its right side; whether it occurs.
    fn replace(&self, label: usize, s: Statement, set: &mut Set) -> Result<bool, u8> {
        let old = self.variable(s.a);
        let ty = self.types[s.a as usize];
        match s.kind {
            CONSTANT => {
                let new = node(CONSTANT, ty, 0, s.immediate);
                set.change(|c| Ok(swap(c, old, new)))
            }
            COPY => {
                let new = self.variable(s.b);
                set.change(|c| Ok(swap(c, old, new)))
            }
            CONVERT => {
                let new = [self.variable(s.b), node(CONVERT, ty, 0, 0)];
                set.change(|c| expand(c, old, &new, self.limits.nodes))
            }
            READ | LOAD => {
                // A fresh atom has n = 0 until it is renumbered.
                let new = if s.kind == READ {
                    node(READING, ty, s.b, 0)
                } else {
                    set.trays |= 1 << s.b;
                    node(LOADED, ty, label as u16, 0)
                };
                set.change(|c| {
                    let found = swap(c, old, new);
                    if found {
                        renumber(c);
                    }
                    Ok(found)
                })
            }
            _ => {
                let new = [self.variable(s.b), self.variable(s.c), node(s.kind, ty, 0, 0)];
                set.change(|c| expand(c, old, &new, self.limits.nodes))
            }
        }
    }

    /// The rule of a store. It makes no conjunct longer, so 9 cannot arise.
    fn store(&self, s: Statement, set: &mut Set) -> Result<(), u8> {
        let tray = 1u16 << s.a;
        if set.trays & tray == 0 {
            return Ok(());
        }
        set.variables |= bit(s.c);
        let stored = self.variable(s.c);
        if self.trays[s.a as usize].length == 1 {
            set.trays &= !tray;
            set.change(|conjunct| {
                let mut found = false;
                for n in conjunct.iter_mut() {
                    if self.loaded_from(*n, s.a) {
                        *n = stored;
                        found = true;
                    }
                }
                Ok(found)
            })?;
            return Ok(());
        }
        let mut conjuncts = Vec::with_capacity(self.limits.conjuncts);
        for conjunct in std::mem::take(&mut set.conjuncts) {
            let mut atoms: Vec<u64> = Vec::new();
            for &n in &conjunct {
                if self.loaded_from(n, s.a) && !atoms.contains(&n) {
                    atoms.push(n);
                }
            }
            // Subsets differ in which nodes are the stored variable, so 7 atoms
            // give 128 conjuncts.
            if 1 << atoms.len().min(7) > self.limits.conjuncts {
                return Err(10);
            }
            for subset in 1..1 << atoms.len() {
                let mut replaced = conjunct.clone();
                for n in &mut replaced {
                    if let Some(place) = atoms.iter().position(|atom| atom == n) {
                        if subset >> place & 1 == 1 {
                            *n = stored;
                        }
                    }
                }
                renumber(&mut replaced);
                self.insert(&mut conjuncts, replaced)?;
            }
            self.insert(&mut conjuncts, conjunct)?;
        }
        set.conjuncts = conjuncts;
        Ok(())
    }

    /// The rule at the recipe's start: every variable and cell is 0 there.
    fn start(mut set: Set) -> Result<Set, u8> {
        set.variables = 0;
        set.trays = 0;
        set.change(|conjunct| {
            let mut found = false;
            for n in conjunct.iter_mut() {
                if kind(*n) == VARIABLE || kind(*n) == LOADED {
                    *n = node(CONSTANT, ty(*n), 0, 0);
                    found = true;
                }
            }
            Ok(found)
        })?;
        Ok(set)
    }

    /// The node of a variable.
    fn variable(&self, variable: u16) -> u64 {
        node(VARIABLE, self.types[variable as usize], variable, 0)
    }

    /// Whether a node is a value loaded from a tray.
    fn loaded_from(&self, n: u64, tray: u16) -> bool {
        kind(n) == LOADED && self.code.statements[field(n)].b == tray
    }
}
