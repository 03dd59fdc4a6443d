//! Made-up inputs for differential tests, the same for the same seed.

use crate::build::{self, of_parts, s};
use crate::condition::{self, file_order, node, MOST_NODES, READING};
use crate::convert::OLD;
use crate::fields::{entries, of_entries, types, Field, ENTRY};
use crate::recipe::{word, MOST_STATEMENTS};
use crate::sheet::MOST_READINGS;
use crate::types::{
    immediate, is_signed, width, wrap, ADD, CALL, CONSTANT, CONVERT, COPY, DIVIDE, ELSE, END, IF, LOAD, MULTIPLY, READ,
    SITE, STORE, SUBTRACT, WHILE,
};

/// A small random generator (splitmix).
pub struct Rng(u64);

impl Rng {
    /// A generator for a seed; neighbouring seeds give unrelated numbers.
    #[must_use]
    pub fn new(seed: u64) -> Rng {
        Rng(seed.wrapping_mul(0x2545_f491_4f6c_dd1d))
    }

    /// The next 64 bits.
    pub fn draw(&mut self) -> u64 {
        self.0 = self.0.wrapping_add(0x9e37_79b9_7f4a_7c15);
        let mut z = self.0;
        z = (z ^ (z >> 30)).wrapping_mul(0xbf58_476d_1ce4_e5b9);
        z = (z ^ (z >> 27)).wrapping_mul(0x94d0_49bb_1331_11eb);
        z ^ (z >> 31)
    }

    /// A number below `n`, which is not 0.
    pub fn below(&mut self, n: usize) -> usize {
        (self.draw() % n as u64) as usize
    }

    /// A number from `low` to `high`, both included.
    pub fn between(&mut self, low: usize, high: usize) -> usize {
        low + self.below(high - low + 1)
    }

    /// True `percent` times in a hundred.
    pub fn chance(&mut self, percent: usize) -> bool {
        self.below(100) < percent
    }

    /// One of some things, which are not none.
    pub fn pick<T: Copy>(&mut self, things: &[T]) -> T {
        things[self.below(things.len())]
    }

    /// A place in a list of weights, in proportion to them.
    fn weighted(&mut self, weights: &[usize]) -> usize {
        let mut left = self.below(weights.iter().sum());
        weights
            .iter()
            .position(|&w| {
                left < w || {
                    left -= w;
                    false
                }
            })
            .unwrap()
    }
}

/// What the maker of recipes guesses of a value: the nodes of its expression and
/// its number of conjuncts.
#[derive(Clone, Copy)]
pub(crate) struct Guess {
    nodes: usize,
    ways: usize,
}

pub(crate) const ZERO: Guess = Guess { nodes: 1, ways: 1 };

/// A guess, kept small enough to go on reckoning with.
fn guess(nodes: usize, ways: usize) -> Guess {
    Guess { nodes: nodes.min(1_000), ways: ways.min(1_000) }
}

/// What a call needs to know of a procedure: the types of its parameters and of its result, what the result is
/// guessed to be of parameters that are one node, and how deep its body nests.
pub(crate) struct Callable {
    pub(crate) parameters: Vec<u8>,
    pub(crate) result: u8,
    pub(crate) guess: Guess,
    pub(crate) depth: usize,
}

/// What recipes are made over: fields and trays by their types.
#[derive(Clone)]
pub(crate) struct Tables {
    pub(crate) fields: Vec<u8>,
    pub(crate) trays: Vec<(u8, u16)>,
}

/// A recipe or a procedure's body under way.
pub(crate) struct Maker<'a> {
    rng: &'a mut Rng,
    fields: Vec<u8>,
    pub(crate) variables: Vec<u8>,
    trays: Vec<(u8, u16)>,
    /// The procedures that may be called.
    callable: &'a [Callable],
    pub(crate) statements: Vec<[u8; 8]>,
    /// The first variables are ordinary; those after are kept for counters and indices.
    ordinary: usize,
    /// Without care for what the analysis will say.
    wild: bool,
    /// What each variable and tray is guessed to hold.
    pub(crate) values: Vec<Guess>,
    held: Vec<Guess>,
    /// Inside loops a tray takes from variables below its rank and gives to those above.
    ranks: Vec<usize>,
}

/// A structured recipe with right tables, types and blocks, biased to be accepted; some fields are narrow.
pub fn recipe(rng: &mut Rng) -> Vec<u8> {
    let whole = whole_recipe(rng);
    narrowed(rng, &whole)
}

/// The same with all bits of the fields' types.
pub(crate) fn whole_recipe(rng: &mut Rng) -> Vec<u8> {
    if rng.chance(6) {
        return recipe_at_a_limit(rng);
    }
    if rng.chance(5) {
        return sums_of_readings(rng);
    }
    let palette: Vec<u8> = (0..rng.between(1, 3)).map(|_| rng.pick(&[0, 1, 1, 2, 2, 2, 3, 4, 5, 6, 6, 7])).collect();
    let any = |rng: &mut Rng| if rng.chance(90) { rng.pick(&palette) } else { rng.below(8) as u8 };
    let field_count = rng.pick(&[0, 1, 1, 1, 2, 2, 2, 2, 3, 3, 3, 4, 6]);
    let fields: Vec<u8> = (0..field_count).map(|_| any(rng)).collect();
    let ordinary = rng.between(2, 10);
    let mut variables: Vec<u8> =
        (0..ordinary).map(|_| if field_count > 0 && rng.chance(60) { rng.pick(&fields) } else { any(rng) }).collect();
    for _ in 0..rng.between(2, 4) {
        variables.push(rng.pick(&[0, 0, 1, 2, 3, 4, 6]));
    }
    variables.push(rng.below(4) as u8);
    let mut trays = Vec::new();
    for _ in 0..rng.pick(&[0, 0, 1, 1, 1, 2, 3]) {
        let length = rng.pick(&[1, 1, 1, 2, 2, 3, 4, 7, 256]);
        trays.push((if rng.chance(80) { rng.pick(&variables[..ordinary]) } else { any(rng) }, length));
    }
    let mut maker = Maker::new(rng, Tables { fields, trays }, variables, ordinary, &[]);
    let size = maker.rng.pick(&[4, 8, 12, 16, 20, 25, 30, 40, 60, 120]);
    let size = if maker.rng.chance(1) { 900 } else { size };
    maker.whole(size);
    maker.statements.truncate(MOST_STATEMENTS);
    write(&maker.fields, &maker.variables, &maker.trays, &maker.statements)
}

/// A recipe close to one of the analysis's limits, on either side of it.
fn recipe_at_a_limit(rng: &mut Rng) -> Vec<u8> {
    let ty = rng.below(8) as u8;
    // Variable 24 is the index. The others have the field's type, as has the tray.
    let mut variables = vec![ty; 24];
    variables.push(rng.below(4) as u8);
    let trays = [(ty, rng.pick(&[1, 2, 2, 2, 5]))];
    let mut statements: Vec<[u8; 8]> = Vec::new();
    let mut push = |kind: u8, a: usize, b: usize, c: usize| {
        statements.push([kind, a as u8, b as u8, c as u8, 0, 0, 0, 0]);
    };
    match rng.below(4) {
        // Values move up a row by one place a round: 16 places settle in round 16.
        0 => {
            let places = rng.between(13, 18);
            let depth = rng.pick(&[1, 1, 1, 2]);
            push(READ, places - 1, 0, 0);
            (0..depth).for_each(|_| push(WHILE, 20, 0, 0));
            (1..places).for_each(|v| push(COPY, v - 1, v, 0));
            (0..depth).for_each(|_| push(END, 0, 0, 0));
            push(SITE, 0, 0, 0);
        }
        // A sum of 63 nodes and a row of conversions: 120 nodes or near it.
        1 => {
            push(READ, 0, 0, 0);
            (0..5).for_each(|_| push(ADD, 0, 0, 0));
            push(READ, 1, 0, 0);
            (0..rng.between(52, 58)).for_each(|_| push(CONVERT, 1, 1, 0));
            push(rng.pick(&[ADD, SUBTRACT]), 2, 0, 1);
            push(SITE, 2, 0, 0);
        }
        // Loads of one tray behind a store: 6 give 64 conjuncts, 7 too many.
        2 => {
            let loads = rng.between(4, 7);
            push(READ, 10, 0, 0);
            push(STORE, 0, 24, 10);
            (0..loads).for_each(|v| push(LOAD, v, 0, 24));
            (1..loads).for_each(|v| push(ADD, 0, 0, v));
            push(SITE, 0, 0, 0);
        }
        // Values that are one thing or another: 6 give 64 conjuncts; then another site.
        _ => {
            let values = rng.between(5, 7);
            for v in 0..values {
                push(READ, v, 0, 0);
                push(IF, 20, 0, 0);
                push(ADD, v, v, v);
                push(ELSE, 0, 0, 0);
                push(END, 0, 0, 0);
            }
            (1..values).for_each(|v| push(rng.pick(&[ADD, SUBTRACT]), 0, 0, v));
            push(SITE, 0, 0, 0);
            push(SITE, rng.below(values), 0, 0);
        }
    }
    write(&[ty], &variables, &trays, &statements)
}

/// A recipe that sums readings of each field at a site of its own, so that on one sheet some sums may have
/// too many combinations and others read a blank field.
fn sums_of_readings(rng: &mut Rng) -> Vec<u8> {
    let fields: Vec<u8> = (0..rng.between(2, 4)).map(|_| rng.below(8) as u8).collect();
    let variables: Vec<u8> = fields.iter().flat_map(|&ty| [ty, ty]).collect();
    let mut statements: Vec<[u8; 8]> = Vec::new();
    for field in 0..fields.len() as u8 {
        let (sum, reading) = (2 * field, 2 * field + 1);
        for _ in 0..rng.between(1, 6) {
            statements.push(s(READ, reading, field, 0));
            statements.push(s(ADD, sum, sum, reading));
        }
        statements.push(s(SITE, sum, 0, 0));
    }
    write(&fields, &variables, &[], &statements)
}

/// A field of a type: half of them have fewer bits than it.
fn field(rng: &mut Rng, ty: u8) -> Field {
    let most = Field::whole(ty).bits;
    let any = rng.between(1, most as usize) as u8;
    let bits = if rng.chance(50) { most } else { rng.pick(&[1, 2, 4, any, any, most / 2, most - 1]) };
    Field { ty, bits }
}

/// A recipe with other numbers of bits in its fields.
pub(crate) fn narrowed(rng: &mut Rng, recipe: &[u8]) -> Vec<u8> {
    let [fields, variables, trays, statements] = build::sections(recipe);
    let fields = of_entries(&fields).expect("its fields are right");
    let fields: Vec<Field> = fields.iter().map(|whole| field(rng, whole.ty)).collect();
    of_parts(&[entries(&fields), variables, trays, statements])
}

/// The file of a recipe, whose fields have all bits of these types.
pub(crate) fn write(fields: &[u8], variables: &[u8], trays: &[(u8, u16)], statements: &[[u8; 8]]) -> Vec<u8> {
    let trays: Vec<[u8; 4]> = trays.iter().map(|&(ty, length)| [ty, 0, length as u8, (length >> 8) as u8]).collect();
    build::recipe(fields, variables, &trays, statements)
}

impl<'a> Maker<'a> {
    /// A maker over variables of some types, of which the first are ordinary.
    pub(crate) fn new(
        rng: &'a mut Rng,
        tables: Tables,
        variables: Vec<u8>,
        ordinary: usize,
        callable: &'a [Callable],
    ) -> Maker<'a> {
        let Tables { fields, trays } = tables;
        let wild = rng.chance(20);
        let ranks = trays.iter().map(|_| rng.below(ordinary + 1)).collect();
        let (values, held) = (vec![ZERO; variables.len()], vec![ZERO; trays.len()]);
        let statements = Vec::new();
        Maker { rng, fields, variables, trays, callable, statements, ordinary, wild, values, held, ranks }
    }

    pub(crate) fn push(&mut self, kind: u8, a: usize, b: usize, c: usize, immediate: u32) {
        let i = immediate.to_le_bytes();
        self.statements.push([kind, a as u8, b as u8, c as u8, i[0], i[1], i[2], i[3]]);
    }

    /// A whole recipe of about `size` statements: mostly some readings to begin with, and sites at the end.
    pub(crate) fn whole(&mut self, size: usize) {
        for _ in 0..self.rng.pick(&[0, 2, 4, 6]) {
            self.read();
        }
        self.body(size, 0, false);
        for _ in 0..self.rng.between(1, 2) {
            self.site();
        }
    }

    /// Statements of one block: about `size`, nested up to 4 deep.
    pub(crate) fn body(&mut self, size: usize, depth: usize, looped: bool) {
        let until = self.statements.len() + size;
        while self.statements.len() < until && self.statements.len() < MOST_STATEMENTS - 40 {
            let left = until - self.statements.len();
            let blocks = if depth < 4 && left > 3 { 6 } else { 0 };
            let calls = if self.callable.is_empty() { 0 } else { 25 };
            match self.rng.weighted(&[4, 7, 40, 10, 20, 14, 14, 5, blocks, blocks, calls]) {
                0 => self.constant(),
                1 => self.copy(looped),
                2 => self.arithmetic(looped),
                3 => self.conversion(looped),
                4 => self.read(),
                5 => self.load(looped),
                6 => self.store(looped),
                7 => self.site(),
                8 => self.choice(left, depth, looped),
                9 => self.repeat(left, depth),
                _ => self.call(depth, looped),
            }
        }
    }

    fn constant(&mut self) {
        let a = self.rng.below(self.ordinary);
        self.set_constant(a);
    }

    fn set_constant(&mut self, a: usize) {
        let ty = self.variables[a];
        let any = edge_or_small(self.rng, Field::whole(ty));
        let value = if immediate(ty, any as u32) == Some(any) { any } else { self.rng.below(8) as u64 };
        self.push(CONSTANT, a, 0, 0, value as u32);
        self.values[a] = ZERO;
    }

    /// A variable of a type to take from, below a rank if inside a loop.
    fn source(&mut self, ty: u8, rank: usize, looped: bool) -> Option<usize> {
        let free = self.wild || !looped || self.rng.chance(3);
        let right: Vec<usize> = (0..self.ordinary).filter(|&v| self.variables[v] == ty && (free || v < rank)).collect();
        if right.is_empty() {
            None
        } else {
            Some(self.rng.pick(&right))
        }
    }

    fn copy(&mut self, looped: bool) {
        let a = self.rng.below(self.ordinary);
        match self.source(self.variables[a], a, looped) {
            Some(b) => {
                self.push(COPY, a, b, 0, 0);
                self.values[a] = self.values[b];
            }
            None => self.set_constant(a),
        }
    }

    fn arithmetic(&mut self, looped: bool) {
        let a = self.rng.below(self.ordinary);
        let ty = self.variables[a];
        let sources = (self.source(ty, a, looped), self.source(ty, a, looped));
        let (Some(b), Some(c)) = sources else { return self.read() };
        let (left, right) = (self.values[b], self.values[c]);
        let guess = guess(left.nodes + right.nodes + 1, left.ways * right.ways);
        if !self.wild && (guess.nodes > 115 || guess.ways > 40) && self.rng.chance(97) {
            return self.read();
        }
        let kind = self.rng.pick(&[ADD, ADD, ADD, SUBTRACT, SUBTRACT, MULTIPLY, MULTIPLY, DIVIDE]);
        self.push(kind, a, b, c, 0);
        self.values[a] = guess;
    }

    /// A call of any procedure, seldom of one that would nest too deep.
    fn call(&mut self, depth: usize, looped: bool) {
        let callable = self.callable;
        let number = self.rng.below(callable.len());
        let Callable { parameters, result, guess: inner, depth: deeper } = &callable[number];
        let targets: Vec<usize> = (0..self.ordinary).filter(|&v| self.variables[v] == *result).collect();
        if targets.is_empty() || depth + deeper > 4 && self.rng.chance(97) {
            return self.read();
        }
        let a = self.rng.pick(&targets);
        let mut arguments = [0; 4];
        let (mut nodes, mut ways) = (inner.nodes, inner.ways);
        for (place, &ty) in parameters.iter().enumerate() {
            let Some(argument) = self.source(ty, a, looped) else { return self.read() };
            arguments[place] = argument as u8;
            nodes += 2 * self.values[argument].nodes;
            ways *= self.values[argument].ways;
        }
        let guess = guess(nodes, ways);
        if !self.wild && (guess.nodes > 115 || guess.ways > 40) && self.rng.chance(97) {
            return self.read();
        }
        self.push(CALL, a, number, 0, u32::from_le_bytes(arguments));
        self.values[a] = guess;
    }

    fn conversion(&mut self, looped: bool) {
        let a = self.rng.below(self.ordinary);
        let b = self.rng.below(self.ordinary);
        if !self.wild && ((looped && b >= a) || self.values[b].nodes > 110) {
            return self.read();
        }
        self.push(CONVERT, a, b, 0, 0);
        self.values[a] = guess(self.values[b].nodes + 1, self.values[b].ways);
    }

    fn read(&mut self) {
        let right: Vec<(usize, usize)> = (0..self.ordinary)
            .flat_map(|v| (0..self.fields.len()).map(move |f| (v, f)))
            .filter(|&(v, f)| self.variables[v] == self.fields[f])
            .collect();
        if right.is_empty() {
            return self.constant();
        }
        let (v, f) = self.rng.pick(&right);
        self.push(READ, v, f, 0, 0);
        self.values[v] = ZERO;
    }

    /// Some unsigned variable for an index; the last one is.
    fn index(&mut self) -> usize {
        let right: Vec<usize> = (0..self.variables.len()).filter(|&v| !is_signed(self.variables[v])).collect();
        if self.rng.chance(60) {
            self.variables.len() - 1
        } else {
            self.rng.pick(&right)
        }
    }

    fn load(&mut self, looped: bool) {
        if self.trays.is_empty() {
            return self.constant();
        }
        let tray = self.rng.below(self.trays.len());
        let right: Vec<usize> = (0..self.ordinary)
            .filter(|&v| self.variables[v] == self.trays[tray].0)
            .filter(|&v| self.wild || !looped || v >= self.ranks[tray])
            .collect();
        if right.is_empty() {
            return self.read();
        }
        let a = self.rng.pick(&right);
        let index = self.index();
        self.push(LOAD, a, tray, index, 0);
        self.values[a] = self.held[tray];
    }

    fn store(&mut self, looped: bool) {
        if self.trays.is_empty() {
            return self.arithmetic(looped);
        }
        let tray = self.rng.below(self.trays.len());
        let (ty, length) = self.trays[tray];
        let Some(c) = self.source(ty, self.ranks[tray], looped) else { return self.read() };
        let (old, new) = (self.held[tray], self.values[c]);
        let ways = if length == 1 && !looped { new.ways } else { old.ways + new.ways };
        if !self.wild && ways > 12 {
            return self.read();
        }
        // At times the index moves first.
        if self.rng.chance(30) {
            let last = self.variables.len() - 1;
            let place = self.rng.below(8) as u32;
            self.push(CONSTANT, last, 0, 0, place);
        }
        let index = self.index();
        self.push(STORE, tray, index, c, 0);
        let nodes = if length == 1 && !looped { new.nodes } else { old.nodes.max(new.nodes) };
        self.held[tray] = guess(nodes, ways);
    }

    /// A site, mostly on a variable set not long before.
    fn site(&mut self) {
        let recent: Vec<usize> = self
            .statements
            .iter()
            .rev()
            .take(12)
            .filter(|s| s[0] <= LOAD && (s[1] as usize) < self.ordinary)
            .map(|s| s[1] as usize)
            .collect();
        let a = if !recent.is_empty() && self.rng.chance(90) {
            // Of two, the one that more went into.
            let (one, other) = (self.rng.pick(&recent), self.rng.pick(&recent));
            if self.values[one].nodes > self.values[other].nodes {
                one
            } else {
                other
            }
        } else {
            self.rng.below(self.variables.len())
        };
        self.push(SITE, a, 0, 0, 0);
    }

    /// An if with its else; either branch may be empty.
    fn choice(&mut self, left: usize, depth: usize, looped: bool) {
        let test = self.rng.below(self.variables.len());
        self.push(IF, test, 0, 0, 0);
        let before = (self.values.clone(), self.held.clone());
        let size = self.rng.below((left / 2).clamp(1, 12));
        self.body(size, depth + 1, looped);
        self.push(ELSE, 0, 0, 0, 0);
        let after = (self.values.clone(), self.held.clone());
        (self.values, self.held) = before;
        let size = self.rng.below((left / 2).clamp(1, 12));
        self.body(size, depth + 1, looped);
        self.push(END, 0, 0, 0, 0);
        join(&mut self.values, &after.0);
        join(&mut self.held, &after.1);
    }

    /// A while: with a counter, once, until a reading is 0, or left to itself.
    fn repeat(&mut self, left: usize, depth: usize) {
        let size = self.rng.below((left / 2).clamp(1, 16));
        let before = (self.values.clone(), self.held.clone());
        let spare: Vec<usize> = (self.ordinary..self.variables.len() - 1).collect();
        let counter = self.rng.pick(&spare);
        let one = spare.iter().copied().find(|&v| v != counter && self.variables[v] == self.variables[counter]);
        match (self.rng.below(10), one) {
            (0..=5, Some(one)) => {
                let turns = self.rng.between(1, 4) as u32;
                self.push(CONSTANT, counter, 0, 0, turns);
                self.push(WHILE, counter, 0, 0, 0);
                self.body(size, depth + 1, true);
                self.push(CONSTANT, one, 0, 0, 1);
                self.push(SUBTRACT, counter, counter, one, 0);
            }
            (6..=8, _) if !self.fields.is_empty() => {
                let right = (0..self.ordinary).find(|&v| self.fields.contains(&self.variables[v]));
                let test = right.unwrap_or(counter);
                self.push(WHILE, test, 0, 0, 0);
                self.body(size, depth + 1, true);
                match self.fields.iter().position(|&ty| ty == self.variables[test]) {
                    Some(field) => self.push(READ, test, field, 0, 0),
                    None => self.push(CONSTANT, test, 0, 0, 0),
                }
                self.values[test] = ZERO;
            }
            (9, _) => {
                let test = self.rng.below(self.variables.len());
                self.push(WHILE, test, 0, 0, 0);
                self.body(size, depth + 1, true);
            }
            _ => {
                self.push(CONSTANT, counter, 0, 0, 1);
                self.push(WHILE, counter, 0, 0, 0);
                self.body(size, depth + 1, true);
                self.push(CONSTANT, counter, 0, 0, 0);
            }
        }
        self.push(END, 0, 0, 0, 0);
        join(&mut self.values, &before.0);
        join(&mut self.held, &before.1);
    }
}

/// What is guessed where two ways meet.
fn join(values: &mut [Guess], others: &[Guess]) {
    for (value, other) in values.iter_mut().zip(others) {
        let ways = value.ways + other.ways;
        let same = value.nodes == other.nodes && value.ways == other.ways && value.nodes == 1;
        *value = guess(value.nodes.max(other.nodes), if same { value.ways } else { ways });
    }
}

/// A held value of a field: mostly small, else near an edge, or any.
fn edge_or_small(rng: &mut Rng, field: Field) -> u64 {
    let (lowest, highest) = field.ends();
    let value = match rng.below(20) {
        0..=13 => rng.below(8) as u64,
        14 => (highest as u64).wrapping_sub(rng.below(3) as u64),
        15 => (lowest as u64).wrapping_add(rng.below(3) as u64),
        16 => (rng.below(5) as u64).wrapping_neg(),
        17 => {
            // Near the root of the highest value, or near a narrower type's edge.
            let bits = rng.below(field.bits as usize);
            (1u64 << bits).wrapping_add(rng.below(3) as u64).wrapping_sub(1)
        }
        18 => rng.below(200) as u64,
        _ => rng.draw(),
    };
    field.kept(value)
}

/// A held value of a field's type that its bits do not hold: next to their ends, or any.
fn beyond(rng: &mut Rng, field: Field) -> u64 {
    let (lowest, highest) = field.ends();
    let near = [(highest as u64).wrapping_add(1), (lowest as u64).wrapping_sub(1)];
    let any = 1u64 << rng.between(field.bits as usize, Field::whole(field.ty).bits as usize - 1);
    let found = wrap(field.ty, rng.pick(&[near[0], near[0], near[1], any]));
    if field.holds(found) {
        wrap(field.ty, near[0])
    } else {
        found
    }
}

/// Damages a file in one or two ways; some aim at the parts of a recipe.
pub fn damage(rng: &mut Rng, bytes: &mut Vec<u8>) {
    damage_form(rng, bytes, ENTRY);
}

/// Damages a file; some ways aim at the parts of a recipe whose fields have entries of this size.
fn damage_form(rng: &mut Rng, bytes: &mut Vec<u8>, entry: usize) {
    for _ in 0..rng.pick(&[1, 1, 1, 2]) {
        if is_recipe(bytes, entry) && rng.chance(75) {
            damage_recipe(rng, bytes, entry);
        } else {
            damage_bytes(rng, bytes);
        }
    }
}

/// A recipe of the old form, of the parts of a recipe that may be damaged; at times it is damaged as such, or has more
/// fields than there may be, and so many statements that it is about as long as there may be.
pub fn old_recipe(rng: &mut Rng, recipe: &[u8]) -> Vec<u8> {
    if !is_recipe(recipe, ENTRY) {
        return recipe.to_vec();
    }
    let [fields, variables, trays, mut statements] = build::sections(recipe);
    let mut fields: Vec<u8> = fields.chunks_exact(ENTRY).map(|entry| entry[0]).collect();
    if rng.chance(3) {
        fields.resize(rng.between(31, 48), 2);
        let room = OLD.longest - 32 - fields.len() - variables.len() - trays.len();
        let site = s(SITE, 0, 0, 0);
        (statements.len() / 8..room / 8).for_each(|_| statements.extend(site));
    }
    let mut old = of_parts(&[fields, variables, trays, statements]);
    if rng.chance(25) {
        damage_form(rng, &mut old, OLD.entry);
    }
    old
}

/// Flips, sets, cuts, extends, takes out or puts in bytes, or shifts a pair of the table.
fn damage_bytes(rng: &mut Rng, bytes: &mut Vec<u8>) {
    if bytes.is_empty() {
        bytes.push(rng.draw() as u8);
        return;
    }
    let at = rng.below(bytes.len());
    match rng.below(8) {
        0 => bytes[at] ^= 1 << rng.below(8),
        1 => bytes[at] = rng.draw() as u8,
        2 => bytes[at] = rng.pick(&[0, 1, 7, 8, 15, 127, 128, 255]),
        3 => bytes.truncate(at),
        4 => (0..rng.between(1, 9)).for_each(|_| bytes.push(rng.pick(&[0, 0, 1, 255]))),
        5 => {
            bytes.remove(at);
        }
        6 => bytes.insert(at, rng.pick(&[0, 1, 255])),
        _ => {
            // One of the numbers in front, as in the tables of all files.
            let at = 4 * rng.below((bytes.len() / 4).clamp(1, 10));
            if at + 4 <= bytes.len() {
                let step = rng.pick(&[1u32, 2, 4, 8, u32::MAX, u32::MAX - 7, 1 << 31]);
                let moved = word(bytes, at).wrapping_add(step);
                bytes[at..at + 4].copy_from_slice(&moved.to_le_bytes());
            }
        }
    }
}

/// Whether the section table of a recipe is right, with entries of fields of this size.
fn is_recipe(bytes: &[u8], entry: usize) -> bool {
    let mut start = 32;
    bytes.len() >= 32
        && (0..4).all(|i| {
            let length = word(bytes, 8 * i + 4) as usize;
            let right = word(bytes, 8 * i) as usize == start && length.is_multiple_of([entry, 1, 4, 8][i]);
            start += length;
            right
        })
        && start == bytes.len()
}

/// Damages one part of a recipe and leaves the rest right: its sections, entries,
/// kinds, operands, types, immediates or blocks.
fn damage_recipe(rng: &mut Rng, bytes: &mut Vec<u8>, entry: usize) {
    let section = |bytes: &[u8], i: usize| {
        let offset = word(bytes, 8 * i) as usize;
        offset..offset + word(bytes, 8 * i + 4) as usize
    };
    let mut parts: Vec<Vec<u8>> = (0..4).map(|i| bytes[section(bytes, i)].to_vec()).collect();
    let statement = |rng: &mut Rng, parts: &[Vec<u8>]| 8 * rng.below((parts[3].len() / 8).max(1));
    let of_kinds = |rng: &mut Rng, parts: &[Vec<u8>], kinds: std::ops::RangeInclusive<u8>| {
        let right: Vec<usize> =
            (0..parts[3].len() / 8).map(|s| 8 * s).filter(|&s| kinds.contains(&parts[3][s])).collect();
        if right.is_empty() {
            None
        } else {
            Some(rng.pick(&right))
        }
    };
    let sizes = [entry, 1, 4, 8];
    match rng.below(14) {
        // Too many entries, or just as many as are allowed.
        0 => {
            let i = rng.below(4);
            let most = [32, 64, 16, 1024][i];
            let entries = most + rng.below(2);
            let another: &[u8] = [&[2, 160][..entry], &[2], &[2, 0, 1, 0], &[CONSTANT, 0, 0, 0, 1, 0, 0, 0]][i];
            while parts[i].len() < entries * sizes[i] {
                parts[i].extend(another);
            }
        }
        // A length that is no multiple.
        1 => {
            let i = rng.pick(&[0, 2, 3]);
            parts[i].push(0);
        }
        // A type code.
        2 => {
            let i = rng.pick(&[0, 1]);
            if !parts[i].is_empty() {
                let at = sizes[i] * rng.below(parts[i].len() / sizes[i]);
                parts[i][at] = rng.pick(&[0, 2, 4, 7, 8, 9, 255]);
            }
        }
        // The bits of a field.
        13 => damage_bits(rng, &mut parts[0], entry),
        // A tray.
        3 => {
            if parts[2].is_empty() {
                parts[2].extend([0, 0, 1, 0]);
            }
            let at = 4 * rng.below(parts[2].len() / 4);
            let (place, value) = rng.pick(&[(0, 8), (1, 1), (2, 0), (3, 1), (3, 2)]);
            parts[2][at + place] = value;
        }
        // A kind, an operand or an unused byte.
        4 | 5 => {
            if !parts[3].is_empty() {
                let at = statement(rng, &parts);
                let place = rng.below(8);
                parts[3][at + place] = rng.pick(&[0, 1, 2, 3, 5, 9, 15, 31, 63, 64, 255]);
            }
        }
        // Operands exchanged, which mostly makes the types disagree.
        6 | 7 => {
            if let Some(at) = of_kinds(rng, &parts, COPY..=STORE) {
                let names = parts[1].len().max(1);
                let place = at + rng.between(1, 3);
                if parts[3][at] != COPY && parts[3][at] != CONVERT && parts[3][at] != READ || place < at + 3 {
                    parts[3][place] = rng.below(names) as u8;
                }
            }
        }
        // An immediate outside its type.
        8 | 9 => {
            if let Some(at) = of_kinds(rng, &parts, CONSTANT..=CONSTANT) {
                let value =
                    rng.pick(&[0x80u32, 0xff, 0x100, 0x8000, 0xffff, 0x10000, 0x8000_0000, 0xffff_ffff, 0xffff_ff7f]);
                parts[3][at + 4..at + 8].copy_from_slice(&value.to_le_bytes());
            }
        }
        // A block's statement gone, doubled or of another kind.
        10 | 11 => {
            if let Some(at) = of_kinds(rng, &parts, IF..=WHILE) {
                let copy = parts[3][at..at + 8].to_vec();
                match rng.below(4) {
                    0 => drop(parts[3].drain(at..at + 8)),
                    1 => drop(parts[3].splice(at..at, copy)),
                    2 => parts[3][at..at + 2].copy_from_slice(&rng.pick(&[[ELSE, 0], [END, 0]])),
                    _ => parts[3][at] = rng.pick(&[IF, WHILE]),
                }
            } else {
                parts[3].extend([rng.pick(&[IF, ELSE, END, WHILE]), 0, 0, 0, 0, 0, 0, 0]);
            }
        }
        // A fifth block, or just four, around it all.
        _ => {
            let deep = rng.between(3, 5);
            let mut around = Vec::new();
            (0..deep).for_each(|_| around.extend([WHILE, 0, 0, 0, 0, 0, 0, 0]));
            around.extend(&parts[3]);
            (0..deep).for_each(|_| around.extend([END, 0, 0, 0, 0, 0, 0, 0]));
            parts[3] = around;
        }
    }
    *bytes = of_parts(&parts);
}

/// Gives an entry of a field table another second byte, right or wrong.
fn damage_bits(rng: &mut Rng, entries: &mut [u8], entry: usize) {
    if entry < ENTRY || entries.is_empty() {
        return;
    }
    let at = entry * rng.below(entries.len() / entry);
    let most = 128 + Field::whole(entries[at] & 7).bits;
    entries[at + 1] = rng.pick(&[0, 1, 127, 128, 129, most, most + 1, most + 1, 193, 255]);
}

/// A sheet for fields: few or many readings, small ones and ones near the edges of their bits, and in one of twenty
/// sheets one beyond the bits of a narrow field. At times some fields are blank, and more often so beside many
/// readings, where a blank field and too many combinations meet.
pub fn sheet(rng: &mut Rng, fields: &[Field]) -> Vec<u8> {
    let mut columns = columns(rng, fields);
    if rng.chance(5) {
        let is_narrow = |&f: &usize| !fields[f].is_whole() && !columns[f].is_empty();
        let narrow: Vec<usize> = (0..fields.len()).filter(is_narrow).collect();
        if !narrow.is_empty() {
            let f = rng.pick(&narrow);
            let (width, count) = (width(fields[f].ty), columns[f].len() / width(fields[f].ty));
            let any = rng.below(count);
            let at = width * rng.pick(&[0, count - 1, any]);
            columns[f][at..at + width].copy_from_slice(&beyond(rng, fields[f]).to_le_bytes()[..width]);
        }
    }
    of_parts(&columns)
}

/// The bytes of each field's readings, all within their bits.
fn columns(rng: &mut Rng, fields: &[Field]) -> Vec<Vec<u8>> {
    let tame = rng.chance(60);
    let many = rng.chance(8);
    let blank = rng.chance(if many { 50 } else { 20 });
    let mut columns: Vec<Vec<u8>> = Vec::new();
    for &field in fields {
        let count = match rng.below(40) {
            0..=33 => rng.between(1, 4),
            34..=36 => rng.between(5, 20),
            37 => rng.pick(&[32, 64, 127, 128]),
            _ => 1,
        };
        let count = if many { rng.pick(&[8, 16, 32, 64, 128]) } else { count };
        let count = if blank && rng.chance(30) { 0 } else { count };
        let mut readings = Vec::new();
        for _ in 0..count {
            let value = if tame { field.kept(rng.below(5) as u64) } else { edge_or_small(rng, field) };
            readings.extend(&value.to_le_bytes()[..width(field.ty)]);
        }
        columns.push(readings);
    }
    columns
}

/// Damages a sheet for fields in one or two ways, each in a pair at any place or at the file's end. At times
/// everything else follows, so that nothing but this pair is wrong.
pub fn damage_pairs(rng: &mut Rng, bytes: &mut Vec<u8>, fields: &[Field]) {
    for _ in 0..rng.pick(&[1, 1, 1, 2]) {
        let pairs = fields.len();
        if pairs == 0 || bytes.len() < 8 * pairs || rng.chance(25) {
            damage_end(rng, bytes, pairs);
            continue;
        }
        let any = rng.below(pairs);
        let i = rng.pick(&[0, any, any, pairs - 1]);
        match rng.below(8) {
            0..=2 => damage_offset(rng, bytes, pairs, i),
            3 if pairs > 1 => exchange_pairs(bytes, i, (i + 1) % pairs),
            _ => damage_length(rng, bytes, fields, i),
        }
    }
}

/// Cuts a sheet inside its pairs, inside its last part or anywhere, or puts bytes too many at its end.
fn damage_end(rng: &mut Rng, bytes: &mut Vec<u8>, pairs: usize) {
    let length = bytes.len();
    match rng.below(4) {
        0 if pairs > 0 => bytes.truncate(rng.below(8 * pairs)),
        1 if pairs > 0 => bytes.truncate(length.saturating_sub(rng.between(1, 8))),
        2 if length > 0 => bytes.truncate(rng.below(length)),
        _ => bytes.resize(length + rng.pick(&[1, 1, 1, 2, 8]), 0),
    }
}

/// Moves the offset of a pair: far off, by little, or by little with all pairs after it and the file's end.
fn damage_offset(rng: &mut Rng, bytes: &mut Vec<u8>, pairs: usize, i: usize) {
    if rng.chance(15) {
        let far = rng.pick(&[0, bytes.len() as u32, 1 << 31, u32::MAX - 7, u32::MAX]);
        bytes[8 * i..8 * i + 4].copy_from_slice(&far.to_le_bytes());
        return;
    }
    let by = rng.pick(&[1, 2, 8, -1, -2, -8]);
    if rng.chance(60) {
        add(bytes, 8 * i, by);
    } else {
        (i..pairs).for_each(|later| add(bytes, 8 * later, by));
        move_end(bytes, by);
    }
}

/// Puts two pairs into each other's place.
fn exchange_pairs(bytes: &mut [u8], i: usize, j: usize) {
    (0..8).for_each(|k| bytes.swap(8 * i + k, 8 * j + k));
}

/// Gives a pair another length: no whole number of readings, too many of them, one that runs past the file, a reading
/// more or less, or a very long one. The pairs after it stay, or begin where it then ends. The file may then have as
/// many bytes, unless it would become right or very long.
fn damage_length(rng: &mut Rng, bytes: &mut Vec<u8>, fields: &[Field], i: usize) {
    let (offset, before) = (word(bytes, 8 * i) as usize, word(bytes, 8 * i + 4) as usize);
    let width = width(fields[i].ty);
    let past = bytes.len().saturating_sub(offset) / width + 1;
    let (length, file_may_follow) = match rng.below(8) {
        0..=2 if width > 1 => (width * rng.below(MOST_READINGS + 1) + rng.between(1, width - 1), true),
        0..=3 => (width * rng.pick(&[129, 129, 130, 256, 1_000]), true),
        4 | 5 => (width * rng.pick(&[past, past.max(MOST_READINGS)]), false),
        6 => (before ^ width, false),
        _ => (rng.pick(&[1 << 31, u32::MAX as usize - 7, u32::MAX as usize]), false),
    };
    let by = length as i64 - before as i64;
    add(bytes, 8 * i + 4, by);
    if rng.chance(60) {
        (i + 1..fields.len()).for_each(|later| add(bytes, 8 * later, by));
        if file_may_follow && rng.chance(70) {
            move_end(bytes, by);
        }
    }
}

/// Adds to the 4-byte number at a place, wrapping.
fn add(bytes: &mut [u8], at: usize, by: i64) {
    let sum = i64::from(word(bytes, at)) + by;
    bytes[at..at + 4].copy_from_slice(&(sum as u32).to_le_bytes());
}

/// Cuts a file by some bytes, or extends it.
fn move_end(bytes: &mut Vec<u8>, by: i64) {
    bytes.resize((bytes.len() as i64 + by).max(0) as usize, 0);
}

/// Any field.
fn any_field(rng: &mut Rng) -> Field {
    let ty = rng.below(8) as u8;
    field(rng, ty)
}

/// A made-up condition in form over any fields; one in five is damaged, and in others the bits of a field are.
pub fn condition(rng: &mut Rng) -> Vec<u8> {
    let fields: Vec<Field> = (0..rng.pick(&[0, 1, 2, 3, 4, 8, 32])).map(|_| any_field(rng)).collect();
    let types = types(&fields);
    let count = rng.pick(&[0, 1, 1, 2, 3, 5, 12, 64]);
    let mut conjuncts: Vec<Vec<u64>> = Vec::new();
    for _ in 0..count {
        let size = if rng.chance(4) { MOST_NODES } else { rng.pick(&[1, 3, 5, 8, 12, 20]) };
        let mut nodes = Vec::new();
        let ty = rng.below(8) as u8;
        let mut highest = [0; 32];
        expression(rng, &types, ty, size, &mut highest, &mut nodes);
        conjuncts.push(nodes);
    }
    conjuncts.sort_by(|l, r| file_order(l, r));
    conjuncts.dedup();
    if rng.chance(3) && conjuncts.len() > 1 {
        let (i, j) = (rng.below(conjuncts.len()), rng.below(conjuncts.len()));
        let copy = conjuncts[j].clone();
        conjuncts[i] = copy;
    }
    let mut file = condition::write(&fields, &conjuncts);
    match rng.below(100) {
        0..=19 => damage(rng, &mut file),
        20..=22 => damage_bits(rng, &mut file[8..8 + ENTRY * fields.len()], ENTRY),
        _ => {}
    }
    file
}

/// Appends an expression of a type with at most `size` nodes, n numbered by first appearance.
fn expression(rng: &mut Rng, types: &[u8], ty: u8, size: usize, highest: &mut [u32; 32], nodes: &mut Vec<u64>) {
    if size >= 3 && rng.chance(80) {
        let left = rng.between(1, size - 2);
        expression(rng, types, ty, left, highest, nodes);
        expression(rng, types, ty, size - 1 - left, highest, nodes);
        let kind = rng.pick(&[ADD, ADD, SUBTRACT, SUBTRACT, MULTIPLY, DIVIDE]);
        nodes.push(node(kind, ty, 0, 0));
        return;
    }
    let right: Vec<usize> = (0..types.len()).filter(|&f| types[f] == ty).collect();
    if size >= 2 && (right.is_empty() || rng.chance(40)) {
        let from = if types.is_empty() || rng.chance(20) { rng.below(8) as u8 } else { rng.pick(types) };
        expression(rng, types, from, size - 1, highest, nodes);
        nodes.push(node(CONVERT, ty, 0, 0));
        return;
    }
    if !right.is_empty() && rng.chance(85) {
        let field = rng.pick(&right);
        let fresh = highest[field] == 0 || (highest[field] < 4 && rng.chance(40));
        let n = if fresh { highest[field] + 1 } else { rng.between(1, highest[field] as usize) as u32 };
        highest[field] = highest[field].max(n);
        nodes.push(node(READING, ty, field as u16, n));
        return;
    }
    let any = edge_or_small(rng, Field::whole(ty));
    let value = if immediate(ty, any as u32) == Some(any) { any } else { rng.below(8) as u64 };
    nodes.push(node(CONSTANT, ty, 0, value as u32));
}

/// Choices of 2 bytes each: none, few or many, at times with an odd last byte.
pub fn choices(rng: &mut Rng) -> Vec<u8> {
    let count = rng.pick(&[0, 2, 10, 40, 300, 300, 300, 300, 1_000, 1_000]);
    let mut bytes = Vec::new();
    for _ in 0..count {
        let choice = if rng.chance(80) { rng.below(5) } else { rng.below(65_536) } as u16;
        bytes.extend(choice.to_le_bytes());
    }
    if rng.chance(10) {
        bytes.push(rng.draw() as u8);
    }
    bytes
}

/// A step limit, mostly above what a recipe that ends takes.
pub fn limit(rng: &mut Rng) -> u32 {
    rng.pick(&[0, 5, 40, 400, 400, 1_000, 1_000, 1_000, 3_000, 10_000])
}

/// A log's length, mostly enough for some records.
pub fn log_length(rng: &mut Rng) -> usize {
    rng.pick(&[0, 11, 12, 30, 600, 1_200, 1_200, 1_200, 1_200, 12_000])
}
