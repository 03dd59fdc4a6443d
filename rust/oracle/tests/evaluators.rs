//! The evaluators by columns beside the one that takes a reading after the other.

#![allow(
    clippy::cast_possible_truncation,
    clippy::cast_possible_wrap,
    clippy::cast_sign_loss,
    reason = "the numbers of a test are small, and values wrap to their types"
)]

use gate_oracle::build::of_parts;
use gate_oracle::condition::{kind, node, write, Condition, READING};
use gate_oracle::fields::{whole, Field};
use gate_oracle::generate::{self, Rng};
use gate_oracle::recipe::Recipe;
use gate_oracle::types::{immediate, width, wrap, ADD, CONSTANT, CONVERT, DIVIDE, MULTIPLY, SUBTRACT, TYPES};
use gate_oracle::{batched, check, columns, combinations, derive, failures, Cause, Verdict};
use std::collections::BTreeMap;
use std::fmt::Display;

/// Both evaluators have this answer.
fn answers(condition: &[u8], sheet: &[u8], answer: Result<Verdict, u8>, what: impl Display) {
    assert_eq!(columns::check(condition, sheet), answer, "columns, {what}");
    assert_eq!(batched::check(condition, sheet), answer, "batched, {what}");
}

/// The answer of all.
fn same(condition: &[u8], sheet: &[u8], what: impl Display) -> Result<Verdict, u8> {
    let answer = check(condition, sheet);
    answers(condition, sheet, answer, what);
    answer
}

/// A sheet of fields with their types and readings.
fn sheet(fields: &[(u8, Vec<u64>)]) -> Vec<u8> {
    let bytes = |(ty, readings): &(u8, Vec<u64>)| -> Vec<u8> {
        readings.iter().flat_map(|reading| reading.to_le_bytes()[..width(*ty)].to_vec()).collect()
    };
    of_parts(&fields.iter().map(bytes).collect::<Vec<_>>())
}

fn entries(fields: &[(u8, Vec<u64>)]) -> Vec<Field> {
    fields.iter().map(|field| Field::whole(field.0)).collect()
}

#[test]
fn many_combinations() {
    for seed in 1..=10_000 {
        let case = combinations::case(&mut Rng::new(seed));
        let _ = same(&case.condition, &case.sheet, seed);
    }
}

/// Conditions whose first failure is known beforehand.
#[test]
fn known_failures() {
    let mut tally: BTreeMap<String, usize> = BTreeMap::new();
    for seed in 1..=20_000 {
        let failures::Case { condition, sheet, verdict } = failures::case(&mut Rng::new(seed));
        assert_eq!(same(&condition, &sheet, seed), Ok(verdict), "SEED={seed}");
        *tally.entry(format!("{verdict:?}")).or_default() += 1;
    }
    println!("{tally:?}");
    assert_eq!(tally.len(), 4, "a pass and three causes");
    assert!(tally.values().all(|&times| times > 2_000));
}

/// Recipes, sheets and conditions, some of them damaged, as the proved library is compared on.
#[test]
fn generated_cases() {
    for seed in 1..=20_000 {
        let rng = &mut Rng::new(seed);
        let recipe = generate::recipe(rng);
        let fields = Recipe::read(&recipe).map_or_else(|_| whole(&[2]), |recipe| recipe.fields);
        let mut sheet = generate::sheet(rng, &fields);
        if rng.chance(3) {
            generate::damage(rng, &mut sheet);
        }
        if let Ok(condition) = derive(&recipe) {
            let _ = same(&condition, &sheet, seed);
        }
        let condition = generate::condition(rng);
        let fields = Condition::read(&condition).map_or_else(|_| whole(&[2]), |condition| condition.fields);
        let _ = same(&condition, &generate::sheet(rng, &fields), seed);
    }
}

/// Values of a type near its ends, near 0, and near the powers of 2 up to which words are worked in one way.
fn edges(ty: u8) -> Vec<u64> {
    let range = &TYPES[ty as usize];
    let (low, high) = (i128::from(range.lowest), i128::from(range.highest));
    let mut values: Vec<i128> = (0..3).flat_map(|i| [low + i, high - i, high / 2 + i, i, -i]).collect();
    for power in [7, 8, 15, 16, 31, 32, 49, 50, 51, 61, 62, 63] {
        let power = 1i128 << power;
        values.extend([power - 1, power, power + 1, -power - 1, -power, 1 - power]);
    }
    values.extend([46_340, 46_341, 3_037_000_499, 3_037_000_500, -3_037_000_500, 4_294_967_295, 4_294_967_297]);
    values.retain(|value| (low..=high).contains(value));
    values.sort_unstable();
    values.dedup();
    values.into_iter().map(|value| value as u64).collect()
}

const KINDS: [u8; 4] = [ADD, SUBTRACT, MULTIPLY, DIVIDE];

/// Every operation on every two edges: both vary, one does, both are rows or results; once among ones.
#[test]
fn operations_at_the_edges() {
    for ty in 0..8 {
        let atom = |field: u16| node(READING, ty, field, 1);
        let op = |kind: u8| node(kind, ty, 0, 0);
        let zero = node(CONSTANT, ty, 0, 0);
        for (left, right) in edges(ty).iter().flat_map(|&x| edges(ty).into_iter().map(move |y| (x, y))) {
            for kind in KINDS {
                let plain = write(&whole(&[ty; 2]), &[vec![atom(0), atom(1), op(kind)]]);
                let results =
                    write(&whole(&[ty; 2]), &[vec![atom(0), zero, op(ADD), atom(1), zero, op(ADD), op(kind)]]);
                let shapes =
                    [(vec![left; 2], vec![right; 3]), (vec![left; 9], vec![right]), (vec![left], vec![right; 9])];
                for (x, y) in shapes {
                    let sheet = sheet(&[(ty, x), (ty, y)]);
                    let told = |form: &str| format!("{form}: {left} {kind} {right} of type {ty}");
                    let alone = same(&plain, &sheet, told("alone"));
                    assert_eq!(same(&results, &sheet, told("results")), alone);
                }
                let among = sheet(&[(ty, vec![1, left, 1]), (ty, [vec![1; 8], vec![right]].concat())]);
                let _ = same(&plain, &among, format!("among ones: {left} {kind} {right} of type {ty}"));
            }
        }
    }
}

#[test]
fn conversions_at_the_edges() {
    for (from, to) in (0..8u8).flat_map(|from| (0..8u8).map(move |to| (from, to))) {
        let nodes = vec![node(READING, from, 0, 1), node(CONVERT, to, 0, 0)];
        let condition = write(&whole(&[from]), &[nodes]);
        for (x, y) in edges(from).iter().flat_map(|&x| edges(from).into_iter().map(move |y| (x, y))) {
            let _ = same(&condition, &sheet(&[(from, vec![x, y, x])]), format!("{x} and {y}, {from} to {to}"));
        }
    }
}

/// Fields whose readings lie near some edge, a few of them anywhere.
fn fields_at_the_edges(rng: &mut Rng) -> Vec<(u8, Vec<u64>)> {
    let some: &[u8] = rng.pick(&[&[3], &[7], &[3, 7], &[2], &[6], &[2, 6, 3, 7], &[0, 1, 2, 3, 4, 5, 6, 7]]);
    let fields = rng.between(1, 4);
    let field = |_| {
        let ty = rng.pick(some);
        let edges = edges(ty);
        let near = rng.pick(&edges);
        let count = rng.pick(&[1, 2, 3, 5, 8, 13, 40]);
        let reading = |_| match rng.below(40) {
            0 => rng.pick(&edges),
            1..8 => rng.below(3) as u64,
            _ => wrap(ty, near.wrapping_add(rng.below(5) as u64).wrapping_sub(2)),
        };
        (ty, (0..count).map(reading).collect())
    };
    (0..fields).map(field).collect()
}

/// An expression of at most so many nodes over the first atoms of the fields.
fn expression(rng: &mut Rng, fields: &[(u8, Vec<u64>)], ty: u8, size: usize, nodes: &mut Vec<u64>) {
    let own: Vec<usize> = (0..fields.len()).filter(|&field| fields[field].0 == ty).collect();
    if size >= 3 && rng.chance(85) {
        let left = rng.between(1, size - 2);
        expression(rng, fields, ty, left, nodes);
        expression(rng, fields, ty, size - 1 - left, nodes);
        nodes.push(node(rng.pick(&KINDS), ty, 0, 0));
    } else if size >= 2 && rng.chance(50) {
        let from = fields[rng.below(fields.len())].0;
        expression(rng, fields, from, size - 1, nodes);
        nodes.push(node(CONVERT, ty, 0, 0));
    } else if own.is_empty() || rng.chance(15) {
        let value = rng.pick(&[0, 1, 2, 3, 100, u32::MAX, u32::MAX - 1]);
        let value = if immediate(ty, value).is_some() { value } else { 1 };
        nodes.push(node(CONSTANT, ty, 0, value));
    } else {
        nodes.push(node(READING, ty, rng.pick(&own) as u16, 1));
    }
}

#[test]
fn conjuncts_at_the_edges() {
    let mut tally: BTreeMap<String, usize> = BTreeMap::new();
    for seed in 1..=60_000 {
        let rng = &mut Rng::new(seed);
        let fields = fields_at_the_edges(rng);
        let mut nodes = Vec::new();
        let (ty, size) = (fields[0].0, rng.between(2, 9));
        expression(rng, &fields, ty, size, &mut nodes);
        let verdict = same(&write(&entries(&fields), &[nodes]), &sheet(&fields), seed);
        *tally.entry(format!("{verdict:?}")).or_default() += 1;
    }
    println!("{tally:?}");
    assert_eq!(tally.len(), 4, "a pass and three causes");
    assert!(tally.values().all(|&times| times > 2_000));
}

/// Fields of u8 with one reading each that is not 0.
fn nearly_empty_fields(rng: &mut Rng) -> Vec<(u8, Vec<u64>)> {
    let (number, most) = (rng.between(2, 8), rng.pick(&[2, 4, 30, 64, 128]));
    let mut product = 1;
    let field = |_| {
        let count = rng.between(1, most).min((1 << 20) / product);
        product *= count;
        let mut readings = vec![0; count];
        readings[rng.below(count)] = rng.between(1, 10) as u64;
        (0, readings)
    };
    (0..number).map(field).collect()
}

/// Appends the sum of leaves, in any grouping.
fn sum(rng: &mut Rng, leaves: &[u64], nodes: &mut Vec<u64>) {
    if let [leaf] = leaves {
        nodes.push(*leaf);
        return;
    }
    let (left, right) = leaves.split_at(rng.between(1, leaves.len() - 1));
    sum(rng, left, nodes);
    sum(rng, right, nodes);
    nodes.push(node(ADD, 0, 0, 0));
}

/// Sums, with atoms that recur, of which a single combination overflows, wherever it stands, and that just
/// pass with a constant that is one less.
#[test]
fn no_combination_is_passed_over() {
    for seed in 1..=6_000 {
        let rng = &mut Rng::new(seed);
        let fields = nearly_empty_fields(rng);
        let mut leaves = Vec::new();
        let mut highest = 0;
        for (i, (_, readings)) in fields.iter().enumerate() {
            for _ in 0..rng.between(1, 3) {
                leaves.push(node(READING, 0, i as u16, 1));
                highest += readings.iter().sum::<u64>() as u32;
            }
        }
        leaves.push(node(CONSTANT, 0, 0, 255 - highest));
        (1..leaves.len()).for_each(|i| leaves.swap(i, rng.below(i + 1)));
        let mut nodes = Vec::new();
        sum(rng, &leaves, &mut nodes);
        let (entries, sheet) = (entries(&fields), sheet(&fields));
        answers(&write(&entries, &[nodes.clone()]), &sheet, Ok(Verdict::Pass), seed);
        let constant = nodes.iter_mut().find(|n| kind(**n) == CONSTANT).unwrap();
        *constant = node(CONSTANT, 0, 0, 256 - highest);
        answers(&write(&entries, &[nodes]), &sheet, Ok(Verdict::Held(Cause::Above)), seed);
    }
}
