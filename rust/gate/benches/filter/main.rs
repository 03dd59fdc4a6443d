//! The gate's check beside evaluators in plain Rust, in one run.
//!
//! The independent implementation of the tests takes one reading after the other. `gate_oracle::columns` works
//! columns of combinations in a plain form and is the yardstick, `gate_oracle::batched` does so as fast as was
//! found.
//!
//!     cargo bench --bench filter

#![allow(
    clippy::cast_possible_truncation,
    clippy::cast_possible_wrap,
    clippy::cast_sign_loss,
    clippy::cast_precision_loss,
    reason = "the numbers of a test are small, and values wrap to their types"
)]

mod cases;
mod stack;
#[path = "../../tests/told/mod.rs"]
mod told;

use cases::Case;
use gate_oracle::{batched, columns, Verdict};
use std::hint::black_box;
use told::told;

type Evaluator = fn(&[u8], &[u8]) -> Result<Verdict, u8>;

/// The proved gate first.
const EVALUATORS: [(&str, Evaluator); 4] = [
    ("proved", |condition, sheet| told(gate::check(condition, sheet))),
    ("independent", gate_oracle::check),
    ("columns", columns::check),
    ("batched", batched::check),
];

const ROUNDS: usize = 7;

/// The least time of several rounds of many checks is taken, each round this long in seconds or one check.
const ROUND: f64 = 0.002;

/// The CPU time of this thread in seconds, so that a shared machine disturbs less.
fn now() -> f64 {
    #[repr(C)]
    struct Time {
        seconds: i64,
        nanos: i64,
    }
    extern "C" {
        fn clock_gettime(clock: i32, time: *mut Time) -> i32;
    }
    const THREAD_CPU: i32 = 3;
    let mut time = Time { seconds: 0, nanos: 0 };
    unsafe { clock_gettime(THREAD_CPU, &raw mut time) };
    time.seconds as f64 + time.nanos as f64 * 1e-9
}

/// The seconds of a check, from so many.
fn timed(evaluator: Evaluator, case: &Case, turns: u32) -> f64 {
    let start = now();
    for _ in 0..turns {
        let _ = black_box(evaluator(black_box(&case.condition), &case.sheet));
    }
    (now() - start) / f64::from(turns)
}

/// The seconds of a check by each evaluator, the least of rounds taken in turn.
fn times(case: &Case) -> [f64; EVALUATORS.len()] {
    let turns = EVALUATORS.map(|(name, evaluator)| {
        assert_eq!(evaluator(&case.condition, &case.sheet), Ok(case.verdict), "{}: {name}", case.name);
        (ROUND / timed(evaluator, case, 1)).ceil() as u32
    });
    let mut least = [f64::MAX; EVALUATORS.len()];
    for _ in 0..ROUNDS {
        for (i, (_, evaluator)) in EVALUATORS.into_iter().enumerate() {
            least[i] = least[i].min(timed(evaluator, case, turns[i]));
        }
    }
    least
}

/// A table of cases, their times in ns over a number, with so many decimals.
fn table(title: &str, cases: Vec<Case>, over: f64, decimals: usize) {
    let names = EVALUATORS.map(|(name, _)| name).join(" | ");
    let ratios = EVALUATORS[1..].iter().map(|(name, _)| format!("/{name}")).collect::<Vec<_>>().join(" | ");
    println!("\n{title}:\n\n| case | {names} | {ratios} |\n|{}", "---|".repeat(2 * EVALUATORS.len()));
    for case in cases {
        let times = times(&case).map(|time| time * 1e9 / over);
        let numbers = times.map(|time| format!("{time:.decimals$}")).join(" | ");
        let ratios = times[1..].iter().map(|time| format!("{:.2}", times[0] / time)).collect::<Vec<_>>().join(" | ");
        println!("| {} | {numbers} | {ratios} |", case.name);
    }
}

fn main() {
    let nodes =
        "ns for each of 119 nodes and 1,048,576 combinations, of 4 atoms with 32 readings where nothing else is said";
    table(nodes, cases::large(), 119.0 * 1_048_576.0, 3);
    table("ns for a check", cases::sheets(), 1.0, 0);
    stack::run();
}
