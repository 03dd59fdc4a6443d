//! The soundings of document 01.

use gate_oracle::build::{constant, recipe, s};
use gate_oracle::Cause::{Above, Below, NoDivisor};
use gate_oracle::Verdict::{Held, Pass};
use gate_oracle::*;

const U16: u8 = 1;
const U32: u8 = 2;
const I32: u8 = 6;

/// The gate and the one record of: two constants, a step on them, a site.
fn binary(ty: u8, kind: u8, left: i64, right: i64) -> (Verdict, u8, i64) {
    let statements = [constant(0, left), constant(1, right), s(kind, 2, 0, 1), s(10, 2, 0, 0)];
    judged(&recipe(&[], &[ty; 3], &[], &statements))
}

fn conversion(from: u8, to: u8, value: i64) -> (Verdict, u8, i64) {
    let statements = [constant(0, value), s(6, 1, 0, 0), s(10, 1, 0, 0)];
    judged(&recipe(&[], &[from, to], &[], &statements))
}

fn judged(recipe: &[u8]) -> (Verdict, u8, i64) {
    let mut log = [0xA5; 12];
    let ran = run(recipe, &[], 100, &[], &mut log).unwrap();
    assert_eq!((ran.end, ran.records), (0, 1));
    let verdict = check(&derive(recipe).unwrap(), &[]).unwrap();
    (verdict, log[2], i64::from_le_bytes(log[4..].try_into().unwrap()))
}

#[test]
fn arithmetic() {
    assert_eq!(binary(I32, 4, 46_340, 46_340), (Pass, 0, 2_147_395_600));
    assert_eq!(binary(I32, 4, 46_341, 46_341).0, Held(Above));
    assert_eq!(binary(U32, 4, 65_535, 65_535), (Pass, 0, 4_294_836_225));
    assert_eq!(binary(I32, 3, -2_147_483_648, 0), (Pass, 0, -2_147_483_648));
    assert_eq!(binary(I32, 3, -2_147_483_648, 1), (Held(Below), 1, 2_147_483_647));
    assert_eq!(binary(I32, 5, -2_147_483_648, -1), (Held(Above), 1, -2_147_483_648));
    assert_eq!(binary(I32, 5, -7, 2), (Pass, 0, -3));
    assert_eq!(binary(I32, 5, -7, 0), (Held(NoDivisor), 1, 0));
    assert_eq!(conversion(U32, U16, 65_535), (Pass, 0, 65_535));
    assert_eq!(conversion(U32, U16, 65_536), (Held(Above), 1, 0));
    assert_eq!(conversion(I32, U32, -1), (Held(Below), 1, 4_294_967_295));
}

#[test]
fn trays() {
    let statements = [constant(0, 5), s(9, 0, 2, 0), s(8, 1, 0, 2), s(10, 1, 0, 0)];
    let made = |length| recipe(&[], &[U32; 3], &[[U32, 0, length, 0]], &statements);
    assert_eq!(listing(&made(1)), "conjuncts 1\n0: 5:u32\n");
    assert_eq!(listing(&made(2)), "conjuncts 2\n0: 0:u32\n1: 5:u32\n");
}

#[test]
fn a_loop_that_does_not_settle() {
    let statements = [s(14, 0, 0, 0), constant(1, 1), s(2, 0, 0, 1), s(13, 0, 0, 0), s(10, 0, 0, 0)];
    assert_eq!(derive(&recipe(&[], &[U32; 2], &[], &statements)), Err(11));
}

#[test]
fn combinations() {
    // One field with 128 readings of 1.
    let mut sheet = vec![8, 0, 0, 0, 128, 0, 0, 0];
    sheet.extend([1; 128]);
    for (atoms, answer) in [(2, Ok(Pass)), (3, Err(14))] {
        let mut statements: Vec<[u8; 8]> = (0..atoms).map(|v| s(7, v, 0, 0)).collect();
        statements.extend((1..atoms).map(|v| s(4, 0, 0, v)));
        statements.push(s(10, 0, 0, 0));
        let condition = derive(&recipe(&[0], &[0; 3], &[], &statements)).unwrap();
        assert_eq!(check(&condition, &sheet), answer);
    }
}

#[test]
fn two_reads() {
    let statements = [s(7, 0, 0, 0), s(6, 2, 0, 0), s(7, 1, 0, 0), s(6, 3, 1, 0), s(4, 4, 2, 3), s(10, 4, 0, 0)];
    let recipe = recipe(&[U16], &[U16, U16, U32, U32, U32], &[], &statements);
    assert_eq!(listing(&recipe), "conjuncts 1\n0: f0<1>:u16 to:u32 f0<2>:u16 to:u32 mul:u32\n");
}

#[test]
fn empty_files() {
    let empty = recipe(&[], &[], &[], &[]);
    assert_eq!(derive(&empty), Ok(vec![0; 8]));
    assert_eq!(check(&[0; 8], &[]), Ok(Pass));
    assert_eq!(run(&empty, &[], 0, &[], &mut []), Ok(Ran { end: 0, steps: 0, records: 0 }));
    assert_eq!(derive(&empty[..31]), Err(2));
    assert_eq!(check(&[0; 7], &[]), Err(12));
    assert_eq!(check(&[0; 8], &[0]), Err(13));
}
