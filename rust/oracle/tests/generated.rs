//! Generated cases: the implementation must be coherent with itself.

use gate_oracle::condition::Condition;
use gate_oracle::fields::{whole, Field};
use gate_oracle::gate::reads_blank;
use gate_oracle::generate::{self, Rng};
use gate_oracle::sheet::Sheet;
use gate_oracle::types::TYPES;
use gate_oracle::*;
use std::collections::BTreeMap;

const CASES: u64 = 20_000;

/// Whole numbers longer than this are not worked out.
const MOST_BITS: u64 = 50_000;

/// The fields of a recipe that is read, or else some fields.
fn fields_of(recipe: &[u8]) -> Vec<Field> {
    recipe::Recipe::read(recipe).map_or_else(|_| whole(&[2]), |recipe| recipe.fields)
}

/// A log's 8 bytes as the number they give.
fn logged(recipe: &[u8], label: u16, bytes: &[u8]) -> BigInt {
    let recipe = recipe::Recipe::read(recipe).unwrap();
    let ty = recipe.variables[recipe.listed.statements[label as usize].a as usize];
    let value = u64::from_le_bytes(bytes.try_into().unwrap());
    let number = types::number(ty, value);
    let range = &TYPES[ty as usize];
    assert!(i128::from(range.lowest) <= number && number <= i128::from(range.highest));
    BigInt::from(number)
}

/// The gate's answer on the conjuncts that read no blank field, or nothing if no field is blank.
fn on_the_others(condition: &[u8], sheet: &[u8]) -> Option<Result<Verdict, u8>> {
    let Condition { fields, mut conjuncts } = Condition::read(condition).ok()?;
    let read = Sheet::read(sheet, &fields).ok()?;
    (0..fields.len()).find(|&field| read.readings(field).is_empty())?;
    conjuncts.retain(|conjunct| !reads_blank(conjunct, &read));
    Some(check(&condition::write(&fields, &conjuncts), sheet))
}

/// What to count of the gate's answer: itself, and with a blank field what else it could have been.
fn told(condition: &[u8], sheet: &[u8]) -> Vec<String> {
    let answer = check(condition, sheet);
    let mut told = vec![format!("{answer:?}")];
    if let Some(other) = on_the_others(condition, sheet) {
        assert!(answer == other || answer == Err(15), "{answer:?}, {other:?}");
        told.push(format!("{answer:?} with a blank field, {other:?} on the other conjuncts"));
    }
    told
}

/// The answers that must occur: 15 also where 14 would be met or the sheet held, and a pass with a blank field.
const ANSWERS: [&str; 12] = [
    "Ok(Pass)",
    "Ok(Held(Above))",
    "Ok(Held(Below))",
    "Ok(Held(NoDivisor))",
    "Err(13)",
    "Err(14)",
    "Err(15)",
    "Err(15) with a blank field, Err(14) on the other conjuncts",
    "Err(15) with a blank field, Ok(Held(Above)) on the other conjuncts",
    "Err(15) with a blank field, Ok(Held(Below)) on the other conjuncts",
    "Err(15) with a blank field, Ok(Held(NoDivisor)) on the other conjuncts",
    "Ok(Pass) with a blank field, Ok(Pass) on the other conjuncts",
];

#[test]
fn coherent() {
    let mut tally: BTreeMap<String, usize> = BTreeMap::new();
    let mut count = |what: String| *tally.entry(what).or_default() += 1;
    for case in 0..CASES {
        let rng = &mut Rng::new(case);
        let with_procedures = rng.chance(33);
        let mut recipe = if with_procedures { calls::recipe(rng) } else { generate::recipe(rng) };
        let damaged = rng.chance(15);
        if damaged && with_procedures {
            misuses::damage(rng, &mut recipe);
        } else if damaged {
            generate::damage(rng, &mut recipe);
        }
        let mut sheet = generate::sheet(rng, &fields_of(&recipe));
        if rng.chance(3) {
            generate::damage(rng, &mut sheet);
        }
        let (limit, choices) = (generate::limit(rng), generate::choices(rng));
        let mut log = vec![0xA5; generate::log_length(rng)];

        let derived = derive(&recipe);
        let from = if damaged { "damaged" } else { "whole" };
        count(match &derived {
            Ok(_) => format!("derive, {from}: accepted"),
            Err(number) => format!("derive, {from}: refused {number:2}"),
        });
        let listing = listing(&recipe);
        let first = listing.lines().next().unwrap();
        let verdict = derived.as_ref().ok().map(|condition| {
            let conjuncts = u32::from_le_bytes(condition[..4].try_into().unwrap());
            assert_eq!(first, format!("conjuncts {conjuncts}"), "case {case}");
            assert_eq!(listing.lines().count(), conjuncts as usize + 1, "case {case}");
            let verdict = check(condition, &sheet);
            for answer in told(condition, &sheet) {
                count(format!("gate on derived: {answer}"));
            }
            assert_ne!(verdict, Err(12), "case {case}");
            verdict
        });
        if let Err(number) = derived {
            assert_eq!(listing, format!("refused {number}\n"), "case {case}");
        }

        let ran = run(&recipe, &sheet, limit, &choices, &mut log);
        count(match ran {
            Ok(ran) => format!("run: end {}", ran.end),
            Err(number) => format!("run: refused {number:2}"),
        });
        let bits = whole_bits(&recipe, &sheet, limit, &choices, log.len());
        let Ok(ran) = ran else {
            assert_eq!(bits, Err(ran.unwrap_err()), "case {case}");
            assert!(log.iter().all(|&byte| byte == 0xA5), "case {case}");
            continue;
        };
        if bits.unwrap() > MOST_BITS {
            count("whole: too long to work out".to_string());
            assert_ne!(verdict, Some(Ok(Verdict::Pass)), "case {case}");
            continue;
        }
        let notes = whole_run(&recipe, &sheet, limit, &choices, log.len()).unwrap();
        assert_eq!(notes.len() as u64, ran.records, "case {case}");
        let (records, rest) = log.split_at(12 * notes.len());
        assert!(rest.iter().all(|&byte| byte == 0xA5), "case {case}");
        for (record, note) in records.chunks_exact(12).zip(&notes) {
            assert_eq!(u16::from_le_bytes([record[0], record[1]]), note.label, "case {case}");
            assert_eq!(record[3], 0, "case {case}");
            // A value is marked just if some step in its making overflowed, and
            // an unmarked one is exact.
            assert_eq!(record[2], u8::from(note.overflows > 0), "case {case}");
            let same = logged(&recipe, note.label, &record[4..]) == note.number;
            assert!(same || record[2] == 1, "case {case}");
            if verdict == Some(Ok(Verdict::Pass)) {
                // Demand 3.
                assert_eq!(record[2], 0, "case {case}: marked though the sheet passed");
                assert!(same, "case {case}");
                count("records of passed sheets".to_string());
            } else if record[2] == 1 {
                count("marked records of other runs".to_string());
            }
        }
        if notes.iter().any(|note| note.number.bits() > 64) {
            count("whole: over 64 bits".to_string());
        }
    }
    for (what, times) in &tally {
        println!("{times:7} {what}");
    }
    let times = |what: &str| tally.get(what).copied().unwrap_or(0);
    let accepted = times("derive, whole: accepted") + times("derive, damaged: accepted");
    println!("{accepted} of {CASES} accepted");
    assert!(accepted as u64 * 3 >= CASES);
    for answer in ANSWERS {
        assert!(times(&format!("gate on derived: {answer}")) > 0, "{answer} never occurs");
    }
    for number in (2..=11).chain([16]) {
        let sum = times(&format!("derive, whole: refused {number:2}"))
            + times(&format!("derive, damaged: refused {number:2}"));
        assert!(sum > 0, "refusal {number} never occurs");
    }
}

#[test]
fn conditions() {
    let mut tally: BTreeMap<String, usize> = BTreeMap::new();
    for case in 0..CASES {
        let rng = &mut Rng::new(1_000_000 + case);
        let file = generate::condition(rng);
        let fields = match condition::Condition::read(&file) {
            Ok(condition) => {
                // What was read writes back to the same bytes.
                assert_eq!(condition::write(&condition.fields, &condition.conjuncts), file);
                condition.fields
            }
            Err(_) => whole(&[2]),
        };
        let mut sheet = generate::sheet(rng, &fields);
        if rng.chance(10) {
            generate::damage(rng, &mut sheet);
        }
        for answer in told(&file, &sheet) {
            *tally.entry(answer).or_default() += 1;
        }
    }
    for (what, times) in &tally {
        println!("{times:7} gate on made-up: {what}");
    }
    for answer in ANSWERS.into_iter().chain(["Err(12)"]) {
        assert!(tally.contains_key(answer), "{answer} never occurs");
    }
}
