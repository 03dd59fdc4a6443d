//! Made-up conditions of which it is known beforehand where they fail first, and why; the same for the same seed.
//!
//! A conjunct is a sum of terms. A term makes a number of some atoms, a different one for each choice of their
//! readings, and takes off the number of one choice. It overflows just where the difference is 0, for a cause of
//! its own.

use crate::build::of_parts;
use crate::condition::{file_order, kind, node, rest, write, MOST_NODES, READING};
use crate::fields::Field;
use crate::gate::Verdict;
use crate::generate::Rng;
use crate::types::{width, Cause, ADD, CONSTANT, CONVERT, DIVIDE, MULTIPLY, SUBTRACT};

const U32: u8 = 2;
const U64: u8 = 3;
const I8: u8 = 4;
const I32: u8 = 6;
const I64: u8 = 7;

/// The numbers of all atoms' readings stay below this, and their squares within an i32.
const MOST: usize = 40_000;

/// A condition, a sheet and the verdict.
pub struct Case {
    pub condition: Vec<u8>,
    pub sheet: Vec<u8>,
    pub verdict: Verdict,
}

/// What the conjuncts are made of: fields of a signed type, whose readings are the numbers from 0 on in some order,
/// and atoms.
struct Maker<'a> {
    rng: &'a mut Rng,
    ty: u8,
    fields: Vec<Vec<usize>>,
    atoms: Vec<Atom>,
}

/// An atom's field, and by how much its reading counts in the number of all.
#[derive(Clone, Copy)]
struct Atom {
    field: usize,
    weight: usize,
}

/// A term: its nodes, in which an atom's n is its place among the atoms, and where it overflows, if anywhere: the
/// places of readings that some atoms take, whatever the others take.
struct Term {
    nodes: Vec<u64>,
    cause: Cause,
    at: Option<Vec<(usize, usize)>>,
}

/// A condition of one to three conjuncts over the same fields.
pub fn case(rng: &mut Rng) -> Case {
    let mut maker = Maker::new(rng);
    let count = maker.rng.between(1, 3);
    let mut conjuncts: Vec<(Vec<u64>, Option<Cause>)> = (0..count).map(|_| maker.conjunct()).collect();
    conjuncts.sort_by(|(left, _), (right, _)| file_order(left, right));
    conjuncts.dedup_by(|(left, _), (right, _)| left == right);
    let cause = conjuncts.iter().find_map(|&(_, cause)| cause);
    let nodes: Vec<Vec<u64>> = conjuncts.into_iter().map(|(nodes, _)| nodes).collect();
    Case {
        condition: write(&vec![Field::whole(maker.ty); maker.fields.len()], &nodes),
        sheet: maker.sheet(),
        verdict: cause.map_or(Verdict::Pass, Verdict::Held),
    }
}

impl<'a> Maker<'a> {
    fn new(rng: &'a mut Rng) -> Maker<'a> {
        let most = rng.pick(&[2, 3, 5, 12, 40, 128]);
        let mut fields: Vec<Vec<usize>> = Vec::new();
        for _ in 0..rng.between(1, 4) {
            let count = rng.between(1, most);
            fields.push(shuffled(rng, (0..count).collect()));
        }
        let mut atoms = Vec::new();
        let mut weight = 1;
        for _ in 0..rng.between(1, 5) {
            let field = rng.below(fields.len());
            if weight * fields[field].len() < MOST {
                atoms.push(Atom { field, weight });
                weight *= fields[field].len();
            }
        }
        let ty = rng.pick(&[I32, I64]);
        Maker { rng, ty, fields, atoms }
    }

    fn sheet(&self) -> Vec<u8> {
        let bytes = |readings: &Vec<usize>| -> Vec<u8> {
            readings.iter().flat_map(|reading| reading.to_le_bytes()[..width(self.ty)].to_vec()).collect()
        };
        of_parts(&self.fields.iter().map(bytes).collect::<Vec<_>>())
    }

    /// The nodes of a conjunct, and the cause of its first failure.
    fn conjunct(&mut self) -> (Vec<u64>, Option<Cause>) {
        let mut terms: Vec<Term> = Vec::new();
        for _ in 0..self.rng.between(1, 4) {
            let term = self.term();
            let nodes: usize = terms.iter().map(|term| term.nodes.len() + 1).sum();
            if nodes + term.nodes.len() <= MOST_NODES {
                terms.push(term);
            }
        }
        let mut nodes: Vec<u64> = Vec::new();
        let sums = terms.len() - 1;
        let early = self.rng.chance(50);
        for (i, term) in terms.iter().enumerate() {
            nodes.extend(&term.nodes);
            if early && i > 0 {
                nodes.push(self.op(ADD));
            }
        }
        nodes.resize(nodes.len() + if early { 0 } else { sums }, self.op(ADD));
        let order = self.renumber(&mut nodes);
        (nodes, self.first_failure(&terms, &order))
    }

    /// Numbers the n of each field by first appearance, and gives the atoms' places in this order.
    fn renumber(&self, nodes: &mut [u64]) -> Vec<usize> {
        let mut order: Vec<usize> = Vec::new();
        for n in nodes.iter_mut().filter(|n| kind(**n) == READING) {
            let place = rest(*n) as usize;
            if !order.contains(&place) {
                order.push(place);
            }
            let field = self.atoms[place].field;
            let before = order.iter().take_while(|&&other| other != place);
            let others = before.filter(|&&other| self.atoms[other].field == field).count();
            *n = node(READING, self.ty, field as u16, others as u32 + 1);
        }
        order
    }

    /// The cause of the term that overflows at the first combination. The last atom in order runs fastest; a term
    /// that asks nothing of an atom overflows already with its first reading. Of two terms at the same combination
    /// the one that stands first counts.
    fn first_failure(&self, terms: &[Term], order: &[usize]) -> Option<Cause> {
        let number = |at: &Vec<(usize, usize)>| {
            order.iter().fold(0, |number, atom| {
                let place = at.iter().find(|(of, _)| of == atom).map_or(0, |&(_, place)| place);
                number * self.fields[self.atoms[*atom].field].len() + place
            })
        };
        let failures = terms.iter().filter_map(|term| Some((number(term.at.as_ref()?), term.cause)));
        // The least, and the first of these.
        failures.min_by_key(|&(number, _)| number).map(|(_, cause)| cause)
    }

    fn op(&self, kind: u8) -> u64 {
        node(kind, self.ty, 0, 0)
    }

    fn constant(&self, value: usize) -> u64 {
        node(CONSTANT, self.ty, 0, value as u32)
    }

    fn term(&mut self) -> Term {
        let places = shuffled(self.rng, (0..self.atoms.len()).collect());
        let places = places[..self.rng.between(1, places.len())].to_vec();
        let fails = self.rng.chance(40);
        let at: Vec<(usize, usize)> =
            places.iter().map(|&place| (place, self.rng.below(self.fields[self.atoms[place].field].len()))).collect();
        let value = |&(place, reading): &(usize, usize)| {
            let Atom { field, weight } = self.atoms[place];
            self.fields[field][reading] * weight
        };
        let number = if fails { at.iter().map(value).sum() } else { MOST };
        let cause = self.rng.pick(&[Cause::Above, Cause::Below, Cause::NoDivisor]);
        let nodes = self.overflowing(cause, &places, number);
        Term { nodes, cause, at: fails.then_some(at) }
    }

    /// A term's nodes: it overflows where the atoms at some places make this number, and is small elsewhere.
    fn overflowing(&mut self, cause: Cause, places: &[usize], number: usize) -> Vec<u64> {
        let (zero, one, many) = (self.constant(0), self.constant(1), self.constant(255));
        let convert = |ty: u8| node(CONVERT, ty, 0, 0);
        let difference =
            |maker: &mut Self| [maker.number(places), vec![maker.constant(number), maker.op(SUBTRACT)]].concat();
        let square = |maker: &mut Self| [difference(maker), difference(maker), vec![maker.op(MULTIPLY)]].concat();
        match cause {
            // 1 divided by the difference.
            Cause::NoDivisor => [vec![one], difference(self), vec![self.op(DIVIDE)]].concat(),
            // The square less 1, for a moment without a sign; then it is of no more use.
            Cause::Below => {
                let unsigned = convert(self.rng.pick(&[U32, U64]));
                let less = [one, self.op(SUBTRACT), unsigned, convert(self.ty), zero, self.op(MULTIPLY)];
                [square(self), less.to_vec()].concat()
            }
            // 255 divided by the square and 1 more, for a moment as an i8.
            Cause::Above => {
                let more = [one, self.op(ADD), self.op(DIVIDE), convert(I8), convert(self.ty)];
                [vec![many], square(self), more.to_vec()].concat()
            }
        }
    }

    /// The number that atoms make: the sum of their readings, each times its weight, in some order.
    fn number(&mut self, places: &[usize]) -> Vec<u64> {
        let mut nodes = Vec::new();
        for (i, &place) in shuffled(self.rng, places.to_vec()).iter().enumerate() {
            let Atom { field, weight } = self.atoms[place];
            nodes.push(node(READING, self.ty, field as u16, place as u32));
            if weight > 1 {
                nodes.extend([self.constant(weight), self.op(MULTIPLY)]);
            }
            if i > 0 {
                nodes.push(self.op(ADD));
            }
        }
        nodes
    }
}

fn shuffled<T>(rng: &mut Rng, mut things: Vec<T>) -> Vec<T> {
    (1..things.len()).for_each(|i| things.swap(i, rng.below(i + 1)));
    things
}
