//! Card 1 of document 02: 15 where a field that some conjunct reads has no readings.

use gate_oracle::build::{conjunct, constant, recipe, s, sheet};
use gate_oracle::condition::write;
use gate_oracle::fields::whole;
use gate_oracle::*;

const U8: u8 = 0;
const MANY: &[u8] = &[0; 128];
const PASS: Result<Verdict, u8> = Ok(Verdict::Pass);
const HELD: Result<Verdict, u8> = Ok(Verdict::Held(Cause::Above));

/// What a row shows, its conjuncts as the listing has them but for the type u8, the readings of each field,
/// and the gate's answer.
type Row = (&'static str, &'static [&'static str], &'static [&'static [u8]], Result<Verdict, u8>);

const ROWS: [Row; 11] = [
    ("a blank field is read", &["f0<1> f1<1> mul"], &[&[1], &[]], Err(15)),
    ("both are filled", &["f0<1> f1<1> mul"], &[&[1], &[1]], PASS),
    ("a blank field is not read", &["f0<1> f0<2> mul"], &[&[1], &[]], PASS),
    ("a blank field, then too many", &["f1<1>", "f0<1> f0<2> add f0<3> add"], &[MANY, &[]], Err(15)),
    ("a filled field, then too many", &["f1<1>", "f0<1> f0<2> add f0<3> add"], &[MANY, &[0]], Err(14)),
    ("too many, then a blank field", &["f0<1> f0<2> add f0<3> add", "f1<1> 0 add 0 add"], &[MANY, &[]], Err(15)),
    ("too many in a conjunct with a blank field", &["f0<1> f0<2> add f0<3> add f1<1> add"], &[MANY, &[]], Err(15)),
    ("a blank field, then an overflow", &["f0<1>", "255 1 add"], &[&[]], Err(15)),
    ("a filled field, then an overflow", &["f0<1>", "255 1 add"], &[&[0]], HELD),
    ("an overflow, then a blank field", &["255 1 add", "f0<1> 0 add"], &[&[]], Err(15)),
    ("an overflow, and a blank field is not read", &["255 1 add"], &[&[]], HELD),
];

fn condition(fields: usize, conjuncts: &[&str]) -> Vec<u8> {
    let conjuncts: Vec<Vec<u64>> = conjuncts.iter().map(|listed| conjunct(U8, listed)).collect();
    write(&whole(&vec![U8; fields]), &conjuncts)
}

#[test]
fn the_gate() {
    for (what, conjuncts, readings, answer) in ROWS {
        assert_eq!(check(&condition(readings.len(), conjuncts), &sheet(readings)), answer, "{what}");
    }
}

#[test]
fn damaged_files_come_first() {
    let (condition, blank) = (condition(1, &["f0<1>"]), sheet(&[&[]]));
    let (cut, longer) = (&condition[1..], [&blank[..], &[0]].concat());
    assert_eq!(check(&condition, &blank), Err(15));
    assert_eq!(check(&condition, &longer), Err(13));
    assert_eq!(check(cut, &blank), Err(12));
    assert_eq!(check(cut, &longer), Err(12));
}

/// A run never refuses with 15: it ends with 2 where a read of the blank field is due.
#[test]
fn runs() {
    let blank = sheet(&[&[]]);
    let ended = |end, steps, records| Ran { end, steps, records };
    let in_a_branch = vec![s(11, 1, 0, 0), s(7, 0, 0, 0), s(12, 0, 0, 0), s(13, 0, 0, 0), s(10, 0, 0, 0)];
    let rows = [
        ("a conjunct reads the field", vec![s(7, 0, 0, 0), s(10, 0, 0, 0)], Err(15), ended(2, 0, 0)),
        ("no conjunct does", vec![s(7, 0, 0, 0), constant(0, 1), s(10, 0, 0, 0)], PASS, ended(2, 0, 0)),
        ("a conjunct does, and the run does not", in_a_branch, Err(15), ended(0, 2, 1)),
    ];
    for (what, statements, answer, ran) in rows {
        let recipe = recipe(&[U8], &[U8; 2], &[], &statements);
        assert_eq!(check(&derive(&recipe).unwrap(), &blank), answer, "{what}");
        assert_eq!(run(&recipe, &blank, 100, &[0; 2], &mut [0; 12]), Ok(ran), "{what}");
    }
}
