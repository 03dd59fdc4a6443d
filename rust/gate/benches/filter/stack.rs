//! The deepest conjunct on a short stack.

use crate::cases::deepest;
use crate::EVALUATORS;
use gate_oracle::Verdict;

const BYTES: usize = 262_144;

/// A stack that is too short ends the process.
pub fn run() {
    let case = deepest();
    let evaluator = EVALUATORS[0].1;
    let run = move || evaluator(&case.condition, &case.sheet);
    let answer = std::thread::Builder::new().stack_size(BYTES).spawn(run).unwrap().join().unwrap();
    let passes = answer == Ok(Verdict::Pass);
    println!("\n20 atoms on a stack of {BYTES} bytes: {}", if passes { "pass" } else { "not passed" });
}
