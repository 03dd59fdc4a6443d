//! Recipes of nested whiles that take many rounds, for tests of the analysis.

use crate::build::{recipe, s};
use crate::generate::Rng;
use crate::types::{ADD, COPY, ELSE, END, IF, LOAD, READ, SITE, STORE, WHILE};

const U32: u8 = 2;

/// The variables that are passed along in chains; the next is a whiles' test and an index, the last a reading.
const CHAIN: u8 = 16;
const TEST: u8 = CHAIN;
const TAKEN: u8 = CHAIN + 1;

/// How large a recipe of loops gets: blocks open at once, statements of a body, links of a chain.
#[derive(Clone, Copy)]
pub struct Size {
    pub depth: usize,
    pub body: usize,
    pub chain: usize,
}

struct Maker<'a> {
    rng: &'a mut Rng,
    size: Size,
    code: Vec<[u8; 8]>,
}

/// A recipe of nested whiles over chains of copies, sums, readings, trays, ifs and sites.
pub fn loops(rng: &mut Rng, size: Size) -> Vec<u8> {
    let mut maker = Maker { rng, size, code: Vec::new() };
    maker.code.push(s(READ, TAKEN, 0, 0));
    maker.body(0);
    for _ in 0..maker.rng.between(1, 3) {
        maker.site();
    }
    maker.code.truncate(1_024);
    let Maker { rng, code, .. } = maker;
    let second = rng.pick(&[1, 2, 2, 3]);
    recipe(&[U32], &[U32; TAKEN as usize + 1], &[[U32, 0, 1, 0], [U32, 0, second, 0]], &code)
}

impl Maker<'_> {
    fn link(&mut self) -> u8 {
        self.rng.below(self.size.chain) as u8
    }

    fn body(&mut self, depth: usize) {
        for _ in 0..self.rng.between(1, self.size.body) {
            match self.rng.below(100) {
                0..=19 if depth < self.size.depth => self.repeat(depth),
                20..=27 if depth < self.size.depth => self.choice(depth),
                28..=33 => self.site(),
                34..=38 => {
                    let a = self.link();
                    self.code.push(s(READ, a, 0, 0));
                }
                39..=46 => {
                    let (a, tray) = (self.link(), self.rng.below(2) as u8);
                    self.code.push(s(LOAD, a, tray, TEST));
                }
                47..=54 => {
                    let (c, tray) = (self.link(), self.rng.below(2) as u8);
                    self.code.push(s(STORE, tray, TEST, c));
                }
                55..=60 => {
                    let (a, b, c) = (self.link(), self.link(), self.rng.pick(&[TAKEN, TAKEN, 0]));
                    self.code.push(s(ADD, a, b, c));
                }
                61..=75 => {
                    let (a, b) = (self.link(), self.link());
                    self.code.push(s(COPY, a, b, 0));
                }
                _ => self.chain(),
            }
        }
    }

    /// Each link takes the next one's value, so that one link moves in each round.
    fn chain(&mut self) {
        let from = self.link();
        let last = (from as usize + self.rng.between(1, self.size.chain)).min(self.size.chain) as u8;
        for link in from..last.saturating_sub(1).max(from) {
            self.code.push(s(COPY, link, link + 1, 0));
        }
    }

    fn repeat(&mut self, depth: usize) {
        self.code.push(s(WHILE, TEST, 0, 0));
        self.body(depth + 1);
        self.code.push(s(END, 0, 0, 0));
    }

    fn choice(&mut self, depth: usize) {
        self.code.push(s(IF, TEST, 0, 0));
        self.body(depth + 1);
        self.code.push(s(ELSE, 0, 0, 0));
        self.body(depth + 1);
        self.code.push(s(END, 0, 0, 0));
    }

    /// A site, at times twice or behind a statement that leaves its variable alone.
    fn site(&mut self) {
        let a = self.link();
        self.code.push(s(SITE, a, 0, 0));
        if self.rng.chance(30) {
            let b = self.link();
            self.code.push(s(COPY, b, TAKEN, 0));
            self.code.push(s(SITE, a, 0, 0));
        }
    }
}
