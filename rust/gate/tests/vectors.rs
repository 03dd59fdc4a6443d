//! The outside vectors through the proved library: every answer and every output byte.

#![allow(
    clippy::cast_possible_truncation,
    clippy::cast_possible_wrap,
    clippy::cast_sign_loss,
    reason = "the numbers of a test are small, and values wrap to their types"
)]

use gate::{check, convert, derive, run, scratch, Cause, Choices, Ran, Refusal, Verdict, CONDITION, RECIPE, RECORD};
use gate_oracle::run::choice_file;
use gate_oracle::vectors::{cases, Case};

const MARK: u8 = 0xA5;

fn refused(refusal: Refusal) -> String {
    format!("refused {}", refusal.number())
}

fn untouched(bytes: &[u8]) -> bool {
    bytes.iter().all(|&byte| byte == MARK)
}

/// What derive says of the case's recipe.
fn derived(case: &Case, scratch: &mut [u64]) -> String {
    let mut condition = vec![MARK; CONDITION + 8];
    match derive(&case.input("recipe"), &mut condition, scratch) {
        Ok(length) => {
            assert_eq!(Some(&condition[..length]), case.file("derived").as_deref(), "{}", case.name());
            assert!(untouched(&condition[length..]), "{}", case.name());
            format!("conjuncts {}", u32::from_le_bytes(condition[..4].try_into().unwrap()))
        }
        Err(refusal) => {
            assert!(untouched(&condition), "{}", case.name());
            refused(refusal)
        }
    }
}

/// What the gate says of the case's sheet under one of its conditions.
fn verdict(case: &Case, condition: &str) -> String {
    match check(&case.input(condition), &case.input("sheet")) {
        Ok(Verdict::Pass) => "pass".to_string(),
        Ok(Verdict::Held(Cause::TooBig)) => "held above".to_string(),
        Ok(Verdict::Held(Cause::TooSmall)) => "held below".to_string(),
        Ok(Verdict::Held(Cause::NoDivisor)) => "held divisor".to_string(),
        Err(refusal) => refused(refusal),
    }
}

/// What a run says of the case.
fn ran(case: &Case, scratch: &mut [u64]) -> String {
    let choices = case.input("choices");
    let (limit, choices) = choice_file(&choices);
    let choices = Choices::of_bytes(choices);
    let mut log = vec![MARK; case.log_length];
    match run(&case.input("recipe"), &case.input("sheet"), limit, &choices, &mut log, scratch) {
        Ok(Ran { end, steps, records }) => {
            let written = RECORD * records as usize;
            assert_eq!(Some(&log[..written]), case.file("log").as_deref(), "{}", case.name());
            assert!(untouched(&log[written..]), "{}", case.name());
            format!("end {} steps {steps} records {records}", end as u8)
        }
        Err(refusal) => {
            assert!(untouched(&log), "{}", case.name());
            refused(refusal)
        }
    }
}

/// The refusal of the case's old recipe, if any; else its new form is the stored one.
fn converted(case: &Case, scratch: &mut [u64]) -> Option<String> {
    let mut recipe = vec![MARK; RECIPE + 8];
    match convert(&case.input("old"), &mut recipe, scratch) {
        Ok(length) => {
            assert_eq!(Some(&recipe[..length]), case.file("converted").as_deref(), "{}", case.name());
            assert!(untouched(&recipe[length..]), "{}", case.name());
            None
        }
        Err(refusal) => {
            assert!(untouched(&recipe), "{}", case.name());
            Some(refused(refusal))
        }
    }
}

#[test]
fn all_cases() {
    let mut scratch = scratch();
    for case in cases() {
        assert_eq!(derived(&case, &mut scratch), case.derive, "{}", case.name());
        for (condition, answer) in [("condition", &case.gate), ("derived", &case.gate_on_derived)] {
            if let Some(expected) = answer {
                assert_eq!(&verdict(&case, condition), expected, "{}: gate on .{condition}", case.name());
            }
        }
        assert_eq!(ran(&case, &mut scratch), case.run, "{}", case.name());
        assert_eq!(converted(&case, &mut scratch), case.convert, "{}", case.name());
    }
}
