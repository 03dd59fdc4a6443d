//! Derives a recipe's condition once, puts any number of sheets to it, and runs the recipe on those that pass,
//! with the first reading at every read.
//!
//!     cargo run --release --example sheets -- RECIPE SHEET ...
//!
//! Exit status as of survey-gate: 0 all pass, 1 some held, 2 some refused, 3 trouble.

use gate::{check, Cause, Choices, Gate, Refusal, Run, Verdict};
use std::error::Error;
use std::process::ExitCode;
use std::{env, fs};

const LIMIT: u32 = 10_000;
const MOST_READS: usize = 10_000;
const MOST_RECORDS: usize = 1_000;

/// The condition of a recipe's file, and the recipe.
fn derived(gate: &mut Gate, name: &str) -> Result<(Vec<u8>, Vec<u8>), Box<dyn Error>> {
    let recipe = fs::read(name)?;
    let condition = gate.derive(&recipe)?;
    Ok((condition, recipe))
}

/// The run on a sheet that passes, or why the sheet is held.
fn run(gate: &mut Gate, condition: &[u8], recipe: &[u8], sheet: &[u8]) -> Result<Result<Run, Cause>, Refusal> {
    if let Verdict::Held(cause) = check(condition, sheet)? {
        return Ok(Err(cause));
    }
    let first_readings: Choices = std::iter::repeat_n(0, MOST_READS).collect();
    gate.run(recipe, sheet, LIMIT, &first_readings, MOST_RECORDS).map(Ok)
}

/// Says what became of a sheet, and gives its exit status.
fn report(name: &str, outcome: Result<Result<Run, Cause>, Refusal>) -> u8 {
    match outcome {
        Ok(Ok(run)) => {
            println!("{name}: pass; {:?} after {} steps", run.end, run.steps);
            run.records.iter().for_each(|record| println!("  label {}: {}", record.label, record.value));
            0
        }
        Ok(Err(cause)) => {
            println!("{name}: held {cause}");
            1
        }
        Err(refusal) => {
            println!("{name}: {refusal}");
            2
        }
    }
}

fn sheets(names: &[String]) -> Result<u8, Box<dyn Error>> {
    let [recipe, sheets @ ..] = names else {
        return Err("usage: sheets RECIPE SHEET ...".into());
    };
    let mut gate = Gate::new();
    let (condition, recipe) = derived(&mut gate, recipe)?;
    let mut status = 0;
    for name in sheets {
        let sheet = fs::read(name)?;
        status = status.max(report(name, run(&mut gate, &condition, &recipe, &sheet)));
    }
    Ok(status)
}

fn main() -> ExitCode {
    let names: Vec<String> = env::args().skip(1).collect();
    let status = sheets(&names).unwrap_or_else(|trouble| {
        eprintln!("{trouble}");
        if trouble.is::<Refusal>() {
            2
        } else {
            3
        }
    });
    ExitCode::from(status)
}
