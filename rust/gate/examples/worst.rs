//! A search for the accepted recipe that takes the proved analysis longest: hill climbing over nested whiles, some
//! steps from each of several starts. As such recipes take minutes, a time is that of few pieces and of three of the
//! sites, and the rest is reckoned from these: times are linear in the pieces.
//!
//! MINUTES gives how long to search, SEED where to begin.
//!
//!     cargo run --release --example worst

#![allow(clippy::cast_precision_loss, reason = "counts are small")]

use gate::{derive, scratch, CONDITION};
use gate_oracle::condition::MOST_CONJUNCTS;
use gate_oracle::generate::Rng;
use gate_oracle::nests::{Nest, Piece, Sites, ROWS, WORST};
use gate_oracle::procedures::MOST_WRITTEN;
use gate_oracle::recipe::MOST_STATEMENTS;
use std::time::{Duration, Instant};

/// Terms of the sum: the longest conjuncts have 119 nodes.
const TERMS: usize = 59;

/// Steps without a longer time before a new start.
const PATIENCE: usize = 25;

/// Seconds that a recipe is timed for at least.
const SHORTEST: f64 = 0.04;

/// Pieces of one of the two recipes that are timed; the other has none.
const FEW: usize = 4;

fn setting(name: &str, usual: u64) -> u64 {
    std::env::var(name).map_or(usual, |text| text.parse().unwrap())
}

/// The seconds that this thread had the processor, where the system tells them, else those since the beginning.
fn processor(begun: Instant) -> f64 {
    let told = std::fs::read_to_string("/proc/thread-self/schedstat").ok();
    let nanoseconds = told.and_then(|text| text.split_whitespace().next()?.parse::<f64>().ok());
    nanoseconds.map_or_else(|| begun.elapsed().as_secs_f64(), |nanoseconds| nanoseconds / 1e9)
}

/// Seconds of the analysis of a recipe, or nothing if it is refused.
fn seconds(nest: Nest) -> Option<f64> {
    let file = nest.recipe();
    let (mut condition, mut words) = (vec![0; CONDITION], scratch());
    let begun = Instant::now();
    let start = processor(begun);
    let mut turns = 0.0;
    loop {
        derive(&file, &mut condition, &mut words).ok()?;
        turns += 1.0;
        let taken = processor(begun) - start;
        if taken > SHORTEST {
            return Some(taken / turns);
        }
    }
}

/// The nest whose sum ends behind some terms, with one site.
fn cut(nest: Nest, terms: usize) -> Nest {
    let touched = nest.touched.min(terms);
    let loads = nest.loads.min(terms - touched);
    let readings = terms - touched - loads;
    Nest { touched, loads, readings, reads: nest.reads.min(readings), sites: Sites::Same(1), ..nest }
}

/// Seconds of one site, reckoned from few pieces, and from one call of them.
fn one_site(nest: Nest) -> Option<f64> {
    let calls = nest.calls.min(1);
    let none = seconds(Nest { pieces: 0, calls, ..nest })?;
    let few = seconds(Nest { pieces: FEW, calls, ..nest })?;
    let pieces = nest.pieces * nest.calls.max(1);
    Some(none + (few - none).max(0.0) * pieces as f64 / FEW as f64)
}

/// Seconds of all sites; sites of one value count once.
fn reckoned(nest: Nest) -> Option<f64> {
    match nest.sites {
        Sites::Same(_) => one_site(cut(nest, TERMS)),
        // The number is one term.
        Sites::Numbered(count) => Some(one_site(cut(nest, TERMS))? * count as f64),
        Sites::Different(count) => {
            let first = one_site(cut(nest, TERMS - count + 1))?;
            let middle = one_site(cut(nest, TERMS - count / 2))?;
            let last = one_site(cut(nest, TERMS))?;
            Some((first + 4.0 * middle + last) / 6.0 * count as f64)
        }
    }
}

/// As many pieces as there is room for, in the innermost body or written out by calls, or nothing if there is none.
fn filled(nest: Nest) -> Option<Nest> {
    if nest.calls == 0 {
        return (FEW..MOST_STATEMENTS).rev().map(|pieces| Nest { pieces, ..nest }).find(|nest| nest.fits());
    }
    let bare = Nest { pieces: 0, calls: 1, ..nest }.statements();
    let piece = Nest { pieces: 1, calls: 1, ..nest }.statements() - bare;
    let called = |pieces: usize| {
        let listed = MOST_STATEMENTS.checked_sub(bare + piece * pieces)? + 1;
        let written = (MOST_WRITTEN + 3 - bare) / (piece * pieces + 2);
        Some(Nest { pieces, calls: listed.min(written), ..nest })
    };
    let all = (FEW..MOST_STATEMENTS).filter_map(called).filter(|nest| nest.fits());
    all.max_by_key(|nest| nest.pieces * nest.calls)
}

/// A step to a nest nearby.
fn step(rng: &mut Rng, mut nest: Nest) -> Nest {
    for _ in 0..rng.between(1, 4) {
        match rng.below(11) {
            0 => nest.depth = rng.between(1, 4),
            1 => nest.rounds = rng.between(2, 16),
            2 => nest.rounds = rng.between(nest.rounds.max(4) - 2, nest.rounds.min(14) + 2),
            3 => nest.restart = !nest.restart,
            4 => nest.long = !nest.long,
            5 => nest.piece = rng.pick(&[Piece::Copies, Piece::Cell, Piece::Store, Piece::If]),
            6 => nest.touched = rng.between(1, 40),
            7 => nest.loads = rng.between(0, 4),
            8 => nest.reads = rng.between(0, TERMS),
            9 => nest.calls = rng.below(2),
            _ => {
                let count = rng.between(1, TERMS);
                nest.sites = rng.pick(&[Sites::Same(1), Sites::Different(count), Sites::Numbered(MOST_CONJUNCTS)]);
            }
        }
    }
    let number = usize::from(matches!(nest.sites, Sites::Numbered(_)));
    nest.touched = nest.touched.min(TERMS - nest.loads - number);
    nest.readings = TERMS - nest.touched - nest.loads - number;
    nest.reads = nest.reads.min(nest.readings);
    nest
}

fn main() {
    let (limit, seed) = (Duration::from_secs(60 * setting("MINUTES", 3)), setting("SEED", 1));
    let rng = &mut Rng::new(seed);
    let begun = Instant::now();
    let (mut tried, mut accepted, mut worst) = (0, 0, 0.0);
    while begun.elapsed() < limit {
        // Far from a row of the table, or near the worst that was known.
        let (start, steps) = if rng.chance(50) { (ROWS[1].1, 20) } else { (WORST, 2) };
        let mut at = (0..steps).fold(start, |nest, _| step(rng, nest));
        let (mut longest, mut vain) = (0.0, 0);
        while vain < PATIENCE && begun.elapsed() < limit {
            vain += 1;
            let Some(nearby) = filled(step(rng, at)) else { continue };
            tried += 1;
            let Some(time) = reckoned(nearby) else { continue };
            accepted += 1;
            if time > longest {
                (at, longest, vain) = (nearby, time, 0);
            }
            if time > worst {
                worst = time;
                println!("{:4.0} s: {time:9.2} s {nearby:?}", begun.elapsed().as_secs_f64());
            }
        }
    }
    println!("{tried} recipes, {accepted} of them accepted");
}
