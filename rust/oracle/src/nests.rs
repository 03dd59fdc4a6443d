//! Recipes of nested whiles whose rounds multiply, for tests and benchmarks of the analysis.
//!
//! The while of each level passes a value along a chain of its own, one link in each round, and before the next
//! inner while the links of that one's chain, but for the first, are set to 0. So each round of a level starts the
//! chain inside it anew, and word by word the innermost body is walked rounds^depth times. A site's value is the
//! first link of any level, and a sum; what stands in the innermost body changes the terms of the sum.
//!
//! Rounds on what is new alone take each link once, unless an if behind the inner while makes each link of the
//! outer chain the inner one's first as well (`restart`): then these rounds multiply too. And where the innermost
//! chain is too long for 16 rounds, unless it is started in its middle as well (`long`), they give up: the value
//! starts it at both places, an outer link at the first alone.

use crate::blocks::DEEPEST;
use crate::build::{call, constant, procedure, recipe, s};
use crate::generate::Rng;
use crate::procedures::MOST_WRITTEN;
use crate::recipe::{MOST_STATEMENTS, MOST_VARIABLES};
use crate::types::{ADD, COPY, ELSE, END, IF, LOAD, READ, SITE, STORE, WHILE};

const U32: u8 = 2;

/// The trays: one of one cell, and one of two.
const CELL: u8 = 0;
const PAIR: u8 = 1;
const TRAYS: [[u8; 4]; 2] = [[U32, 0, 1, 0], [U32, 0, 2, 0]];

/// The links of a long chain, and its middle.
const LONG: usize = 17;
const MIDDLE: usize = 8;

/// What a piece of the innermost body is.
#[derive(Clone, Copy, Debug, PartialEq)]
pub enum Piece {
    /// Two assignments, of the touched variable to the spare one and back.
    Copies,
    /// The touched variable's way into a tray of one cell and back.
    Cell,
    /// The touched variable's way into a tray of two cells.
    Store,
    /// An if that sets the touched variable to the spare one, or does not.
    If,
}

/// The sites behind the whiles.
#[derive(Clone, Copy, Debug, PartialEq)]
pub enum Sites {
    /// All of the whole sum.
    Same(usize),
    /// One behind each of the last terms.
    Different(usize),
    /// Each of the whole sum and a number of its own.
    Numbered(usize),
}

/// A recipe of nested whiles; without any, a straight line.
#[derive(Clone, Copy, Debug)]
pub struct Nest {
    pub depth: usize,
    /// Rounds of each while, which are the links of its chain.
    pub rounds: usize,
    /// Whether each link starts the chain inside it anew.
    pub restart: bool,
    /// Whether the innermost chain settles only if its middle starts it as well.
    pub long: bool,
    /// What the innermost body has, and how many of them.
    pub piece: Piece,
    pub pieces: usize,
    /// How many times the innermost body calls a procedure that has the pieces; without calls it has them itself.
    pub calls: usize,
    /// Terms of the sum: the touched variable, loads from the tray of two cells, which double the set each, and
    /// readings, as many of them of their own as `reads` says.
    pub touched: usize,
    pub loads: usize,
    pub readings: usize,
    pub reads: usize,
    pub sites: Sites,
}

impl Nest {
    /// The recipe file.
    ///
    /// # Panics
    /// If a recipe has no room for it.
    #[must_use]
    pub fn recipe(self) -> Vec<u8> {
        assert!(self.fits(), "{self:?}");
        recipe(&[U32], &vec![U32; self.variables()], &TRAYS, &self.code())
    }

    /// The statements of the recipe.
    #[must_use]
    pub fn statements(self) -> usize {
        self.code().len()
    }

    /// Whether a recipe has room for it.
    #[must_use]
    pub fn fits(self) -> bool {
        let ifs = usize::from(self.piece == Piece::If && self.pieces > 0);
        self.depth + ifs <= DEEPEST
            && self.variables() <= MOST_VARIABLES
            && self.statements() <= MOST_STATEMENTS
            && self.written_out() <= MOST_WRITTEN
    }

    /// The statements with each call written out: the argument, the pieces and the result.
    #[must_use]
    pub fn written_out(self) -> usize {
        if self.calls == 0 {
            return self.statements();
        }
        let pieces = self.statements() - Nest { pieces: 0, ..self }.statements();
        self.statements() - pieces - 2 - self.calls + self.calls * (pieces + 2)
    }

    /// The chains, four more, and the procedure's own.
    fn variables(self) -> usize {
        self.chains() + 4 + usize::from(self.calls > 0)
    }

    /// The links of all chains.
    fn chains(self) -> usize {
        (0..self.depth).map(|level| self.links(level)).sum()
    }

    /// The links of a level's chain.
    fn links(self, level: usize) -> usize {
        if self.long && level + 1 == self.depth {
            LONG
        } else {
            self.rounds
        }
    }

    fn code(self) -> Vec<[u8; 8]> {
        let mut writer = Writer::new(self);
        if self.calls > 0 {
            writer.procedure();
        }
        if self.depth == 0 {
            // A reading, or the conjuncts would all be one at the start.
            writer.put(READ, writer.touched, 0, 0);
        }
        writer.whiles(0);
        writer.first_links();
        writer.sum();
        writer.code
    }
}

/// Four whiles of 15 rounds, conjuncts of 119 nodes.
const DEEP: Nest = Nest {
    depth: 4,
    rounds: 15,
    restart: false,
    long: false,
    piece: Piece::Copies,
    pieces: 410,
    calls: 0,
    touched: 8,
    loads: 0,
    readings: 51,
    reads: 1,
    sites: Sites::Same(1),
};
const CELLS: Nest = Nest { piece: Piece::Cell, pieces: 60, sites: Sites::Different(58), ..DEEP };
const IFS: Nest = Nest { depth: 3, rounds: 10, piece: Piece::If, pieces: 180, ..DEEP };
const STRAIGHT: Nest = Nest { depth: 0, rounds: 0, pieces: 200, touched: 2, loads: 6, ..DEEP };

/// The accepted recipe that takes the shortcuts longest of all that were found, over an hour in plain Rust: what
/// `examples/worst.rs` of `gate` comes to, with as many sites as there may be, each of 119 nodes and 57 readings.
pub const WORST: Nest = Nest {
    rounds: 14,
    restart: true,
    long: true,
    piece: Piece::Cell,
    pieces: 270,
    touched: 1,
    readings: 57,
    reads: 57,
    sites: Sites::Numbered(64),
    ..DEEP
};

/// The rows of the table of times, with their names.
pub const ROWS: [(&str, Nest); 10] = [
    ("4 whiles of 8 rounds, 800 assignments inside", Nest { rounds: 8, pieces: 400, ..DEEP }),
    ("4 whiles of 15 rounds, 820 assignments inside", DEEP),
    ("4 whiles of 15 rounds, 420 assignments inside, 400 sites", Nest { pieces: 210, sites: Sites::Same(400), ..DEEP }),
    ("4 whiles of 15 rounds, 120 loads and stores inside, 58 different sites", CELLS),
    ("3 whiles of 10 rounds, 180 ifs inside", IFS),
    ("3 whiles of 10 rounds, 180 ifs inside, 58 different sites", Nest { sites: Sites::Different(58), ..IFS }),
    ("64 conjuncts of 119 nodes, straight line of 400 assignments", STRAIGHT),
    ("the same, 464 sites", Nest { sites: Sites::Same(464), ..STRAIGHT }),
    (
        "4 whiles of 8 rounds, each link starts the inner chain anew",
        Nest { rounds: 8, pieces: 20, long: false, sites: Sites::Same(1), ..WORST },
    ),
    ("the worst found, in small", Nest { rounds: 5, pieces: 12, sites: Sites::Same(1), ..WORST }),
];

/// Any nest, of few rounds.
pub fn some(rng: &mut Rng) -> Nest {
    let piece = rng.pick(&[Piece::Copies, Piece::Cell, Piece::Store, Piece::If]);
    let depth = rng.between(0, if piece == Piece::If { 3 } else { 4 });
    let (touched, loads, readings) = (rng.between(1, 4), rng.below(3), rng.below(6));
    let sites = rng.between(1, 3).min(touched + loads + readings);
    Nest {
        depth,
        rounds: rng.between(2, 4),
        restart: rng.chance(50),
        long: rng.chance(50),
        piece,
        pieces: rng.below(4),
        calls: if rng.chance(30) { rng.between(1, 3) } else { 0 },
        touched,
        loads,
        readings,
        reads: rng.below(readings + 1),
        sites: rng.pick(&[Sites::Same(sites), Sites::Different(sites), Sites::Numbered(sites)]),
    }
}

/// A recipe while it is written.
struct Writer {
    nest: Nest,
    code: Vec<[u8; 8]>,
    value: u8,
    touched: u8,
    spare: u8,
    /// A reading, the index into trays and what is tested.
    taken: u8,
}

impl Writer {
    fn new(nest: Nest) -> Writer {
        let chains = nest.chains() as u8;
        let (value, touched, spare, taken) = (chains, chains + 1, chains + 2, chains + 3);
        Writer { nest, code: Vec::new(), value, touched, spare, taken }
    }

    fn put(&mut self, kind: u8, a: u8, b: u8, c: u8) {
        self.code.push(s(kind, a, b, c));
    }

    /// The procedure of the pieces: its one variable is its parameter, its result and all that they name.
    fn procedure(&mut self) {
        let own = self.taken + 1;
        let Writer { touched, spare, taken, .. } = *self;
        self.code.push(procedure(1, own, 1));
        (self.touched, self.spare, self.taken) = (own, own, own);
        (0..self.nest.pieces).for_each(|_| self.piece());
        (self.touched, self.spare, self.taken) = (touched, spare, taken);
        self.put(END, 0, 0, 0);
    }

    /// An if without an else, of assignments.
    fn either(&mut self, assignments: impl IntoIterator<Item = (u8, u8)>) {
        self.put(IF, self.taken, 0, 0);
        assignments.into_iter().for_each(|(to, from)| self.put(COPY, to, from, 0));
        self.put(ELSE, 0, 0, 0);
        self.put(END, 0, 0, 0);
    }

    fn link(&self, level: usize, place: usize) -> u8 {
        (level * self.nest.rounds + place) as u8
    }

    /// The whiles from a level on.
    fn whiles(&mut self, level: usize) {
        let nest = self.nest;
        if level == nest.depth {
            return self.innermost();
        }
        let inner = level + 1 < nest.depth;
        self.put(WHILE, self.taken, 0, 0);
        (1..nest.links(level))
            .for_each(|place| self.put(COPY, self.link(level, place - 1), self.link(level, place), 0));
        if inner {
            (1..nest.links(level + 1)).for_each(|place| self.code.push(constant(self.link(level + 1, place), 0)));
        }
        self.whiles(level + 1);
        if inner && nest.restart {
            let first = self.link(level + 1, 0);
            self.either((self.link(level, 0)..first).map(|link| (link, first)));
        }
        self.put(END, 0, 0, 0);
    }

    /// The pieces, or the calls of the procedure that has them.
    fn innermost(&mut self) {
        let Nest { pieces, calls, .. } = self.nest;
        if calls == 0 {
            return (0..pieces).for_each(|_| self.piece());
        }
        (0..calls).for_each(|_| self.code.push(call(self.touched, 0, &[self.touched])));
    }

    fn piece(&mut self) {
        let Writer { touched, spare, taken, .. } = *self;
        match self.nest.piece {
            Piece::Copies => {
                self.put(COPY, spare, touched, 0);
                self.put(COPY, touched, spare, 0);
            }
            Piece::Cell => {
                self.put(STORE, CELL, taken, touched);
                self.put(LOAD, touched, CELL, taken);
            }
            Piece::Store => self.put(STORE, PAIR, taken, touched),
            Piece::If => self.either([(touched, spare)]),
        }
    }

    /// The value is any level's first link, or the long chain's middle.
    fn first_links(&mut self) {
        let Nest { depth, long, .. } = self.nest;
        (0..depth).for_each(|level| self.either([(self.value, self.link(level, 0))]));
        if long && depth > 0 {
            self.either([(self.value, self.link(depth - 1, MIDDLE))]);
        }
    }

    /// The terms of the sum, and the sites.
    fn sum(&mut self) {
        let Nest { touched, loads, readings, reads, sites, .. } = self.nest;
        let (value, taken) = (self.value, self.taken);
        self.put(STORE, PAIR, taken, self.touched);
        let terms = touched + loads + readings;
        for term in 0..terms {
            if term < touched {
                self.put(ADD, value, value, self.touched);
            } else if term < touched + loads {
                self.put(LOAD, self.spare, PAIR, taken);
                self.put(ADD, value, value, self.spare);
            } else {
                if term < touched + loads + reads {
                    self.put(READ, taken, 0, 0);
                }
                self.put(ADD, value, value, taken);
            }
            if matches!(sites, Sites::Different(count) if term + count >= terms) {
                self.put(SITE, value, 0, 0);
            }
        }
        match sites {
            Sites::Same(count) => (0..count).for_each(|_| self.put(SITE, value, 0, 0)),
            Sites::Different(_) => {}
            Sites::Numbered(count) => (0..count).for_each(|number| self.numbered(number)),
        }
    }

    /// A site of the sum and a number.
    fn numbered(&mut self, number: usize) {
        self.code.push(constant(self.spare, number as i64));
        self.put(ADD, self.spare, self.value, self.spare);
        self.put(SITE, self.spare, 0, 0);
    }
}
