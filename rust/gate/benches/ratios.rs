//! The proved library beside plain Rust, on the same inputs in the same run: a table of ratios, and how
//! the cost grows. The plain Rust is the independent implementation of the tests; of nested whiles whose rounds
//! multiply it takes the analysis with the same shortcuts.
//!
//!     cargo bench

#![allow(
    clippy::cast_possible_truncation,
    clippy::cast_possible_wrap,
    clippy::cast_sign_loss,
    clippy::cast_precision_loss,
    reason = "the numbers of a test are small, and values wrap to their types"
)]

use gate::{check, derive, run, scratch, Choices, Refusal, Verdict, CONDITION};
use gate_oracle as plain;
use gate_oracle::build::{call, constant, of_parts, procedure, recipe, s};
use gate_oracle::fields::Field;
use gate_oracle::generate::{self, Rng};
use gate_oracle::nests::ROWS;
use gate_oracle::procedures::MOST_WRITTEN;
use gate_oracle::recipe::MOST_FIELDS;
use gate_oracle::sheet::MOST_READINGS;
use std::hint::black_box;
use std::time::{Duration, Instant};

const U8: u8 = 0;
const U32: u8 = 2;
const U64: u8 = 3;

// ---- recipes and sheets

/// A sheet of one field with `count` readings.
fn sheet(width: usize, count: usize) -> Vec<u8> {
    let mut file = vec![8, 0, 0, 0];
    file.extend(((width * count) as u32).to_le_bytes());
    for i in 0..count {
        file.extend(&(1 + i as u64 % 3).to_le_bytes()[..width]);
    }
    file
}

/// Straight line: `sites` times a value made of eight readings, evenly over `statements` statements.
fn straight(statements: usize, sites: usize) -> Vec<u8> {
    let mut code = Vec::new();
    for site in 0..sites {
        let v = (site % 60) as u8;
        code.push(s(7, v, 0, 0));
        while code.len() + 1 < (site + 1) * statements / sites {
            code.push(match code.len() % 3 {
                0 => s(7, 60, 0, 0),
                1 => s(2, v, v, 60),
                _ => s(1, 61, 60, 0),
            });
            if code.len() % 17 == 0 {
                code.push(s(7, v, 0, 0));
            }
        }
        code.truncate((site + 1) * statements / sites - 1);
        code.push(s(10, v, 0, 0));
    }
    recipe(&[U64], &[U64; 62], &[], &code)
}

/// `depth` nested whiles, whose innermost body passes a value along a row so that it settles after
/// `rounds` rounds, in `statements` statements.
fn nested(depth: usize, rounds: usize, statements: usize) -> Vec<u8> {
    let mut code: Vec<[u8; 8]> = (0..depth).map(|_| s(14, 63, 0, 0)).collect();
    (0..rounds - 2).for_each(|i| code.push(s(1, i as u8, i as u8 + 1, 0)));
    while code.len() < statements - depth {
        code.push(s(2, 40, 41, 42));
    }
    (0..depth).for_each(|_| code.push(s(13, 0, 0, 0)));
    code.push(s(10, 0, 0, 0));
    recipe(&[], &[U32; 64], &[], &code)
}

/// A product of atoms, then sums of the last: `nodes` nodes, `atoms` atoms of one field of u64.
fn tail(atoms: u8, nodes: usize) -> Vec<u8> {
    let mut code: Vec<[u8; 8]> = (0..atoms).map(|v| s(7, v, 0, 0)).collect();
    (1..atoms).for_each(|v| code.push(s(4, 0, 0, v)));
    (2 * atoms as usize - 1..nodes - 1).step_by(2).for_each(|_| code.push(s(2, 0, 0, atoms - 1)));
    code.push(s(10, 0, 0, 0));
    recipe(&[U64], &[U64; 8], &[], &code)
}

/// while n: t[i] = x; y = t[i]; x = y * a; x = x + b; i = x to u8; z = x - y; if z ..; n = n - 1.
fn mixed() -> Vec<u8> {
    recipe(
        &[U32],
        &[U32, U32, U32, U32, U8, U32, U32, U32],
        &[[U32, 0, 16, 0]],
        &[
            constant(0, 1),
            constant(1, 1_103_515_245),
            constant(2, 12_345),
            constant(5, i64::from(u32::MAX)),
            constant(6, 1),
            s(14, 5, 0, 0),
            s(9, 0, 4, 0),
            s(8, 3, 0, 4),
            s(4, 0, 3, 1),
            s(2, 0, 0, 2),
            s(6, 4, 0, 0),
            s(3, 7, 0, 3),
            s(11, 7, 0, 0),
            s(5, 7, 0, 1),
            s(12, 0, 0, 0),
            s(1, 7, 1, 0),
            s(13, 0, 0, 0),
            s(3, 5, 5, 6),
            s(13, 0, 0, 0),
        ],
    )
}

/// while n: x = read; site x; n = n - 1.
fn reading() -> Vec<u8> {
    let code = [
        constant(1, i64::from(u32::MAX)),
        constant(2, 1),
        s(14, 1, 0, 0),
        s(7, 0, 0, 0),
        s(10, 0, 0, 0),
        s(3, 1, 1, 2),
        s(13, 0, 0, 0),
    ];
    recipe(&[U32], &[U32; 3], &[], &code)
}

/// The end of a block or of a procedure.
const END: [u8; 8] = [13, 0, 0, 0, 0, 0, 0, 0];

/// As many calls of a procedure with this body as make 16,384 statements written out, and a site behind them. The
/// argument is a reading; the procedure's own variables are 2 to 5, and 5 is its result.
fn written_out(body: &[[u8; 8]]) -> Vec<u8> {
    let rows = 4 + body.len() + 1;
    let calls = (MOST_WRITTEN - 2) / rows;
    let mut code = [&[procedure(1, 2, 4)][..], body, &[END, s(7, 1, 0, 0)]].concat();
    code.extend(vec![call(0, 0, &[1]); calls]);
    code.extend(vec![constant(1, 1); MOST_WRITTEN - 2 - calls * rows]);
    code.push(s(10, 0, 0, 0));
    recipe(&[U32], &[U32; 6], &[[U32, 0, 2, 0]], &code)
}

/// Bodies for it, with what they are: a sum of eight readings; a while that passes readings along; a store to and a
/// load from a tray of two cells. Each has a site.
fn bodies() -> [(&'static str, Vec<[u8; 8]>); 3] {
    let sum = [s(7, 3, 0, 0), s(2, 5, 5, 3)].repeat(8);
    let passes = [s(14, 2, 0, 0), s(1, 5, 4, 0), s(1, 4, 3, 0), s(7, 3, 0, 0), s(7, 2, 0, 0), END];
    let tray = [s(9, 0, 3, 2), s(8, 5, 0, 3), s(2, 5, 5, 2)];
    let with_site = |code: &[[u8; 8]]| {
        let spare = vec![s(1, 4, 2, 0); 16_usize.saturating_sub(code.len())];
        [&spare[..], code, &[s(10, 5, 0, 0)]].concat()
    };
    [("sums", with_site(&sum)), ("whiles", with_site(&passes)), ("loads and stores", with_site(&tray))]
}

/// while n: x = call p(x); n = n - 1, where p(x) is (x * a + b) / a.
fn calling() -> Vec<u8> {
    let body = [constant(5, 3), constant(6, 7), s(4, 7, 4, 5), s(2, 7, 7, 6), s(5, 7, 7, 5)];
    let outside =
        [constant(1, i64::from(u32::MAX)), constant(2, 1), s(14, 1, 0, 0), call(0, 0, &[0]), s(3, 1, 1, 2), END];
    recipe(&[U32], &[U32; 8], &[], &[&[procedure(1, 4, 4)][..], &body, &[END], &outside].concat())
}

// ---- measuring

/// The analysis in plain Rust.
type Derive = fn(&[u8]) -> Result<Vec<u8>, u8>;

/// The shortest of several rounds of each, taken in turn.
fn compare<A, B>(name: &str, unit: &str, count: f64, mut proved: impl FnMut() -> A, mut other: impl FnMut() -> B) {
    let (mut ours, mut theirs) = (Duration::MAX, Duration::MAX);
    let mut turns = 1u32;
    let begun = Instant::now();
    let mut rounds = 0;
    while rounds < 5 || begun.elapsed() < Duration::from_secs(1) {
        let start = Instant::now();
        (0..turns).for_each(|_| drop(black_box(proved())));
        let middle = Instant::now();
        (0..turns).for_each(|_| drop(black_box(other())));
        let end = Instant::now();
        if middle - start < Duration::from_millis(3) && end - middle < Duration::from_millis(3) {
            turns *= 2;
            continue;
        }
        ours = ours.min((middle - start) / turns);
        theirs = theirs.min((end - middle) / turns);
        rounds += 1;
        if begun.elapsed() > Duration::from_secs(8) {
            break;
        }
    }
    let ratio = ours.as_secs_f64() / theirs.as_secs_f64();
    let each = ours.as_secs_f64() * 1e9 / count;
    println!("| {name} | {ours:.3?} | {theirs:.3?} | {ratio:.2} | {each:.1} ns a {unit} |");
}

fn heading(what: &str) {
    println!("\n| {what} | proved | plain Rust | ratio | |\n|---|---|---|---|---|");
}

fn main() {
    let mut work = scratch();
    let mut condition = vec![0u8; CONDITION];
    let mut log = vec![0u8; 12_000_000];

    heading("derive");
    let mut derives_beside = |other: Derive, name: &str, unit: &str, count: f64, file: &[u8]| {
        let answer = other(file).map(|file| file[0]);
        let ours = derive(file, &mut condition, &mut work).map(|_| condition[0]).map_err(Refusal::number);
        assert_eq!(answer, ours);
        let name = match answer {
            Ok(conjuncts) => format!("{name}: {conjuncts} conjuncts"),
            Err(number) => format!("{name}: refused {number}"),
        };
        compare(&name, unit, count, || derive(file, &mut condition, &mut work), || other(file));
    };
    let mut derives =
        |name: &str, unit: &str, count: f64, file: &[u8]| derives_beside(plain::derive, name, unit, count, file);
    derives("1,024 statements in straight line, 64 sites", "statement", 1024.0, &straight(1024, 64));
    derives("512 statements, 64 sites", "statement", 512.0, &straight(512, 64));
    derives("1,024 statements, 32 sites", "statement", 1024.0, &straight(1024, 32));
    derives("1,024 statements, 8 sites", "statement", 1024.0, &straight(1024, 8));
    for depth in 1..=4 {
        let name = format!("{depth} nested whiles of 8 rounds over 100 statements");
        derives(&name, "recipe", 1.0, &nested(depth, 8, 100));
    }
    let mut stores: Vec<[u8; 8]> = (0..1_000).map(|_| s(9, 0, 7, 6)).collect();
    (0..6).for_each(|v| stores.push(s(8, v, 0, 7)));
    (1..6).for_each(|v| stores.push(s(2, 0, 0, v)));
    stores.push(s(10, 0, 0, 0));
    let stores = recipe(&[], &[U32; 8], &[[U32, 0, 2, 0]], &stores);
    derives("64 conjuncts behind 1,000 stores", "store", 1000.0, &stores);
    // Word by word these would take from seconds to days.
    for (name, nest) in ROWS {
        derives_beside(plain::derive_quickly, name, "statement", nest.statements() as f64, &nest.recipe());
    }
    for (name, body) in bodies() {
        let name = format!("16,384 statements written out, {name} and a site in a procedure");
        derives_beside(plain::derive_quickly, &name, "statement", MOST_WRITTEN as f64, &written_out(&body));
    }
    let made: Vec<Vec<u8>> = (0..500).map(|seed| generate::recipe(&mut Rng::new(seed))).collect();
    compare(
        "500 generated recipes",
        "recipe",
        500.0,
        || made.iter().filter(|file| derive(file, &mut condition, &mut work).is_ok()).count(),
        || made.iter().filter(|file| plain::derive(file).is_ok()).count(),
    );

    heading("check");
    let checks = |name: &str, unit: &str, count: f64, file: &[u8], sheet: &[u8]| {
        let file = plain::derive(file).unwrap();
        assert_eq!(plain::check(&file, sheet), Ok(plain::Verdict::Pass));
        assert_eq!(check(&file, sheet), Ok(Verdict::Pass));
        compare(name, unit, count, || check(&file, sheet), || plain::check(&file, sheet));
    };
    let all = 1_048_576.0;
    checks("119 nodes, 4 atoms, 1,048,576 combinations", "node", all * 113.0, &tail(4, 119), &sheet(8, 32));
    checks("119 nodes, 2 atoms, 16,384 combinations", "node", 16384.0 * 117.0, &tail(2, 119), &sheet(8, 128));
    checks("59 nodes, 4 atoms, 1,048,576 combinations", "node", all * 53.0, &tail(4, 59), &sheet(8, 32));
    checks("7 nodes, 4 atoms, 1,048,576 combinations", "combination", all, &tail(4, 7), &sheet(8, 32));
    checks("7 nodes, 4 atoms, 1 combination", "check", 1.0, &tail(4, 7), &sheet(8, 1));
    for (name, bits) in [("all bits", 32), ("20 bits", 20)] {
        let file = plain::condition::write(&[Field { ty: U32, bits }; MOST_FIELDS], &[]);
        let sheet = of_parts(&vec![[7, 0, 0, 0].repeat(MOST_READINGS); MOST_FIELDS]);
        let name = format!("32 fields u32 of {name} and 128 readings each, no conjunct");
        compare(&name, "reading", 4_096.0, || check(&file, &sheet), || plain::check(&file, &sheet));
    }

    heading("run");
    let few = sheet(4, 3);
    let none = Choices::default();
    let choices = Choices::of_bytes((0..800_000).map(|i| (i * 7) as u8).collect::<Vec<u8>>());
    let mut runs = |name: &str, file: &[u8], limit: u32, choices: &Choices| {
        let ours = run(file, &few, limit, choices, &mut log, &mut work).unwrap();
        let theirs = plain::run(file, &few, limit, choices.as_bytes(), &mut log).unwrap();
        assert_eq!((ours.end as u8, ours.steps, ours.records), (theirs.end, theirs.steps, theirs.records));
        let mut other = vec![0u8; log.len()];
        compare(
            name,
            "step",
            ours.steps as f64,
            || run(file, &few, limit, choices, &mut log, &mut work),
            || plain::run(file, &few, limit, choices.as_bytes(), &mut other),
        );
    };
    runs("a mixed loop, 1,000,000 steps", &mixed(), 1_000_000, &none);
    runs("a mixed loop, 100,000 steps", &mixed(), 100_000, &none);
    runs("a mixed loop, 100 steps", &mixed(), 100, &none);
    runs("reads and sites, 1,000,000 steps", &reading(), 1_000_000, &choices);
    runs("calls in a loop, 1,000,000 steps", &calling(), 1_000_000, &none);
    for (name, body) in bodies() {
        let name = format!("16,384 statements written out, {name} and a site in a procedure");
        runs(&name, &written_out(&body), 100_000, &choices);
    }
}
