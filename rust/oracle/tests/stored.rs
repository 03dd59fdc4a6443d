//! The stored cases of the program `cases`: what its parts `analysing`, `filtering`, `running` and `converting` are to
//! print is what the independent implementation answers.

use gate_oracle::run::choice_file;
use gate_oracle::*;
use std::fmt::Write;
use std::fs;

const CRATE: &str = "../../crates/cases";

/// What a case asks, as bits.
const ANALYSING: u8 = 2;
const MADE_UP: u8 = 4;
const DERIVED: u8 = 8;
const CONVERTING: u8 = 16;
const RUNNING: u8 = 32;
const NOTES: u8 = 64;
const ZERO_LIMIT: u8 = 128;

fn file(number: usize, kind: &str) -> Vec<u8> {
    let path = format!("{CRATE}/data/{number:03}.{kind}");
    fs::read(&path).unwrap_or_else(|e| panic!("{path}: {e}"))
}

/// The lines of a part of what the program prints.
fn part<'a>(printed: &'a str, name: &str, next: Option<&str>) -> &'a str {
    let start = printed.find(&format!("{name}\n")).unwrap() + name.len() + 1;
    let end = next.map_or(printed.len(), |next| printed.find(&format!("\n{next}\n")).unwrap() + 1);
    &printed[start..end]
}

/// The condition of a case's recipe is the stored one.
fn analysed(number: usize) -> String {
    let recipe = file(number, "recipe");
    if let Ok(condition) = derive(&recipe) {
        assert_eq!(condition, file(number, "derived"), "{number:03}");
    }
    format!("{number:03}\n{}", listing(&recipe))
}

/// The verdict on a case's sheet under its condition of a kind.
fn judged(number: usize, kind: &str) -> String {
    let answer = match check(&file(number, kind), &file(number, "sheet")) {
        Ok(Verdict::Pass) => "pass".to_string(),
        Ok(Verdict::Held(Cause::Above)) => "held too big".to_string(),
        Ok(Verdict::Held(Cause::Below)) => "held too small".to_string(),
        Ok(Verdict::Held(Cause::NoDivisor)) => "held no divisor".to_string(),
        Err(refusal) => format!("refused {refusal}"),
    };
    format!("{number:03} {kind} {answer}\n")
}

/// The new form of a case's old recipe is the stored one.
fn converted(number: usize) -> String {
    match convert(&file(number, "old")) {
        Ok(new) => {
            assert_eq!(new, file(number, "converted"), "{number:03}");
            format!("{number:03} converted {}\n", new.len())
        }
        Err(refusal) => format!("{number:03} refused {refusal}\n"),
    }
}

/// The run of a case, with a log of some length.
fn ran(number: usize, asks: u8, room: usize) -> String {
    let (recipe, sheet, choices) = (file(number, "recipe"), file(number, "sheet"), file(number, "choices"));
    let (limit, choices) = choice_file(&choices);
    let limit = if asks & ZERO_LIMIT == 0 { limit } else { 0 };
    let mut log = vec![0; room];
    let answer = run(&recipe, &sheet, limit, choices, &mut log);
    let Ran { end, steps, records } = match answer {
        Ok(ran) => ran,
        Err(refusal) => return format!("{number:03} refused {refusal}\n"),
    };
    let mut said = format!("{number:03} end {end} steps {steps} records {records}\n");
    if records > 0 {
        let written = &log[..12 * usize::try_from(records).unwrap()];
        let hex: Vec<String> = written.iter().map(|byte| format!("{byte:02x}")).collect();
        writeln!(said, "{number:03} log {}", hex.concat()).unwrap();
    }
    if asks & NOTES != 0 {
        for note in whole_run(&recipe, &sheet, limit, choices, room).unwrap() {
            writeln!(said, "{number:03} note {} {} mark 0", note.label, note.number).unwrap();
        }
    }
    said
}

#[test]
fn all_cases() {
    let printed = fs::read_to_string(format!("{CRATE}/stdout")).unwrap();
    let (mut analysing, mut running, mut converting) = (String::new(), String::new(), String::new());
    let mut filtering = String::new();
    let cases = (0..1_000).take_while(|number| fs::exists(format!("{CRATE}/data/{number:03}.case")).unwrap());
    let mut count = 0;
    for number in cases {
        let case = file(number, "case");
        let (room, asks) = (u32::from_le_bytes(case[..4].try_into().unwrap()) as usize, case[4]);
        if asks & ANALYSING != 0 {
            analysing += &analysed(number);
        }
        if asks & MADE_UP != 0 {
            filtering += &judged(number, "condition");
        }
        if asks & DERIVED != 0 {
            filtering += &judged(number, "derived");
        }
        if asks & RUNNING != 0 {
            running += &ran(number, asks, room);
        }
        if asks & CONVERTING != 0 {
            converting += &converted(number);
        }
        count += 1;
    }
    compare(&analysing, part(&printed, "analysing", Some("filtering")));
    compare(&filtering, part(&printed, "filtering", Some("running")));
    compare(&running, part(&printed, "running", Some("converting")));
    compare(&converting, part(&printed, "converting", None));
    println!("{count} cases agree");
}

fn compare(ours: &str, stored: &str) {
    for (line, expected) in ours.lines().zip(stored.lines()) {
        assert_eq!(line, expected);
    }
    assert_eq!(ours, stored);
}
