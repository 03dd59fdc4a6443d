//! The analysis word by word and by way of its shortcuts give the same sets and the same refusals, within
//! document 01's limits and within small ones, where rounds meet 9, 10 and 11.
//!
//! CASES gives the number of recipes, SEED the first one's seed.

use gate_oracle::analysis::{walks, within, Limits, LIMITS};
use gate_oracle::build::{recipe, s};
use gate_oracle::calls;
use gate_oracle::generate::{self, Rng};
use gate_oracle::loops::{loops, Size};
use gate_oracle::nests::{self, Nest, Sites, ROWS};
use gate_oracle::recipe::Recipe;
use std::collections::BTreeMap;

fn setting(name: &str, usual: u64) -> u64 {
    std::env::var(name).map_or(usual, |text| text.parse().unwrap())
}

/// A recipe: of nested loops, with procedures, or any.
fn some_recipe(rng: &mut Rng) -> Vec<u8> {
    match rng.below(100) {
        0..=1 => nests::some(rng).recipe(),
        2..=44 => {
            let size = Size { depth: rng.between(1, 3), body: rng.between(2, 7), chain: rng.between(2, 12) };
            loops(rng, size)
        }
        45..=79 => calls::recipe(rng),
        _ => generate::recipe(rng),
    }
}

/// How often each answer was given.
#[derive(Default)]
struct Tally(BTreeMap<String, u64>);

impl Tally {
    /// Both ways give the same within document 01's limits and within smaller ones.
    fn compare(&mut self, recipe: &Recipe, rng: &mut Rng, name: &str) {
        for limits in [
            LIMITS,
            Limits { nodes: rng.between(1, 30), conjuncts: rng.between(1, 12), rounds: rng.between(1, 6) },
            Limits { rounds: rng.between(2, 12), ..LIMITS },
            Limits { conjuncts: rng.between(2, 20), ..LIMITS },
            Limits { nodes: rng.between(3, 60), ..LIMITS },
        ] {
            let plain = within(recipe, limits, false);
            assert_eq!(plain, within(recipe, limits, true), "{name}, {limits:?}");
            let answer = plain.map_or_else(|number| format!("refused {number}"), |_| "a condition".to_string());
            *self.0.entry(answer).or_default() += 1;
        }
    }

    /// Prints them, and whether all four occur.
    fn complete(&self) -> bool {
        for (answer, times) in &self.0 {
            println!("{times:7} {answer}");
        }
        self.0.len() == 4
    }
}

#[test]
fn shortcuts_change_nothing() {
    let (first, cases) = (setting("SEED", 1), setting("CASES", 20_000));
    println!("SEED={first} CASES={cases}");
    let mut tally = Tally::default();
    for seed in first..first + cases {
        let rng = &mut Rng::new(seed);
        let Ok(recipe) = Recipe::read(&some_recipe(rng)) else { continue };
        tally.compare(&recipe, rng, &format!("SEED={seed} CASES=1"));
    }
    assert!(tally.complete() || cases < 1_000, "an answer never occurs");
}

/// The rows of the table of times, in small.
#[test]
fn rows_in_small() {
    let rng = &mut Rng::new(setting("SEED", 1));
    let mut tally = Tally::default();
    for (name, row) in ROWS {
        for rounds in 2..=5 {
            for restart in [false, true] {
                let sites = match row.sites {
                    Sites::Same(count) => Sites::Same(count.min(3)),
                    Sites::Different(count) => Sites::Different(count.min(3)),
                    Sites::Numbered(count) => Sites::Numbered(count.min(3)),
                };
                let (pieces, readings) = (rng.between(0, 3), rng.between(2, 6));
                let nest = Nest { rounds, restart, pieces, readings, reads: rng.between(0, 2), sites, ..row };
                tally.compare(&Recipe::read(&nest.recipe()).unwrap(), rng, &format!("{name}: {nest:?}"));
            }
        }
    }
    assert!(tally.complete(), "an answer never occurs");
}

/// Word by word the rounds of nested whiles multiply. On what is new alone they add up, to no more than the rounds
/// of each while for itself and for each while around it, unless each link starts the chain inside it anew.
#[test]
fn rounds_multiply() {
    for (depth, rounds, product) in
        [(1, 2, 2), (1, 16, 16), (2, 2, 4), (2, 9, 81), (3, 2, 8), (3, 5, 125), (4, 2, 16), (4, 4, 256)]
    {
        for restart in [false, true] {
            let nest = Nest { depth, rounds, restart, pieces: 1, sites: Sites::Same(1), ..ROWS[0].1 };
            let recipe = Recipe::read(&nest.recipe()).unwrap();
            let innermost = |quick| walks(&recipe, LIMITS, quick).into_iter().rfind(|&times| times > 0).unwrap();
            assert_eq!(innermost(false), product, "{nest:?}");
            let (quickly, sum) = (innermost(true), (rounds * depth * (depth + 1) / 2 + 1) as u64);
            assert!(if restart { quickly > product } else { quickly <= sum }, "{quickly} walks, {nest:?}");
        }
    }
}

/// v0 = v1; ..; v16 = v17 in a while: the set of v0 alone does not settle in 16 rounds, that of v0 and v9 does.
/// So sites are never walked as one.
#[test]
fn a_larger_set_settles_sooner() {
    let sites = |sites: &[u8]| {
        let mut code = vec![s(14, 63, 0, 0)];
        code.extend((0..17).map(|v| s(1, v, v + 1, 0)));
        code.push(s(13, 0, 0, 0));
        code.extend(sites.iter().map(|&v| s(10, v, 0, 0)));
        Recipe::read(&recipe(&[], &[2; 64], &[], &code)).unwrap()
    };
    for quick in [false, true] {
        assert_eq!(within(&sites(&[0]), LIMITS, quick), Err(11));
        assert!(within(&sites(&[9]), LIMITS, quick).is_ok());
        assert_eq!(within(&sites(&[9, 0]), LIMITS, quick), Err(11));
    }
}
