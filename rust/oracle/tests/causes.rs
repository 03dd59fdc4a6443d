//! Card 2 of document 02: a hold carries the cause of the first failure.

use gate_oracle::build::{conjunct, of_parts};
use gate_oracle::condition::write;
use gate_oracle::fields::whole;
use gate_oracle::types::width;
use gate_oracle::Cause::{Above, Below, NoDivisor};
use gate_oracle::*;

const U8: u8 = 0;
const U64: u8 = 3;
const I8: u8 = 4;
const I32: u8 = 6;
const HIGHEST: i128 = 18_446_744_073_709_551_615;

/// What a row shows, the type of its fields and of the nodes that name none, its conjuncts as the listing has them,
/// the readings of each field, and the cause.
type Row = (&'static str, u8, &'static [&'static str], &'static [&'static [i128]], Cause);

const STEPS: [Row; 12] = [
    ("a sum", U8, &["f0<1> 1 add"], &[&[255]], Above),
    ("a sum of negative numbers", I8, &["f0<1> f0<1> add"], &[&[-65]], Below),
    ("a difference", U8, &["f0<1> 1 sub"], &[&[0]], Below),
    ("a difference above the range", I8, &["f0<1> -1 sub"], &[&[127]], Above),
    ("a product", U64, &["f0<1> f0<1> mul"], &[&[HIGHEST]], Above),
    ("a product of opposite signs", I32, &["f0<1> f1<1> mul"], &[&[-65_536], &[65_536]], Below),
    ("the lowest number by -1", I32, &["f0<1> f1<1> div"], &[&[-2_147_483_648], &[-1]], Above),
    ("the lowest number by 0", I32, &["f0<1> f1<1> div"], &[&[-2_147_483_648], &[0]], NoDivisor),
    ("0 by 0", U8, &["f0<1> f0<1> div"], &[&[0]], NoDivisor),
    ("a negative number without a sign", I32, &["f0<1> to:u32"], &[&[-1]], Below),
    ("the highest number in the narrowest type", U64, &["f0<1> to:i8"], &[&[HIGHEST]], Above),
    ("a negative number in a narrower type", I32, &["f0<1> to:i8"], &[&[-129]], Below),
];

/// Rows in which another order would meet another failure first.
const ORDERS: [Row; 11] = [
    ("the product stands first", U8, &["f0<1> f0<1> mul 0 f0<1> sub add"], &[&[16]], Above),
    ("the difference stands first", U8, &["0 f0<1> sub f0<1> f0<1> mul add"], &[&[16]], Below),
    ("the quotient stands first", U8, &["1 f0<1> 16 sub div 0 f0<1> sub add"], &[&[16]], NoDivisor),
    ("the last atom runs fastest", U8, &["f0<1> f1<1> sub"], &[&[1, 0], &[0, 1, 2]], Below),
    ("the same with another cause", I8, &["f0<1> f1<1> sub"], &[&[100, -100], &[0, 100, -100]], Above),
    ("atoms go by appearance, not by field", I8, &["f1<1> f0<1> sub"], &[&[0, 100, -100], &[100, -100]], Above),
    ("readings go as listed", I8, &["f0<1> f0<1> add"], &[&[1, 100, -100, -128]], Above),
    // 20 and 16 overflow at the product; 20 and 30 come later, and overflow already at the difference.
    ("combinations before steps", U8, &["f0<1> f1<1> sub f1<1> f1<1> mul add"], &[&[20], &[16, 30]], Above),
    ("conjuncts in file order", U8, &["1 f0<1> sub", "f0<1> f0<2> add"], &[&[3, 200]], Below),
    ("conjuncts before combinations", U8, &["f0<1> 5 sub", "f0<1> f0<1> mul"], &[&[16, 7, 4]], Below),
    (
        "a conjunct that holds comes first",
        U8,
        &["f0<1> 1 add", "f0<1> 1 sub", "2 f0<1> f0<1> mul div"],
        &[&[17, 0]],
        Below,
    ),
];

/// The files of a row.
fn files(&(_, ty, conjuncts, readings, _): &Row) -> (Vec<u8>, Vec<u8>) {
    let conjuncts: Vec<Vec<u64>> = conjuncts.iter().map(|listed| conjunct(ty, listed)).collect();
    let bytes = |readings: &&[i128]| -> Vec<u8> {
        readings.iter().flat_map(|reading| reading.to_le_bytes()[..width(ty)].to_vec()).collect()
    };
    let fields: Vec<Vec<u8>> = readings.iter().map(bytes).collect();
    (write(&whole(&vec![ty; fields.len()]), &conjuncts), of_parts(&fields))
}

#[test]
fn the_first_failure() {
    for row in STEPS.iter().chain(&ORDERS) {
        let (condition, sheet) = files(row);
        for evaluator in [check, columns::check, batched::check] {
            assert_eq!(evaluator(&condition, &sheet), Ok(Verdict::Held(row.4)), "{}", row.0);
        }
    }
}

/// All products are tested before any evaluation, and all fields before any product.
#[test]
fn refusals_hide_every_cause() {
    let conjuncts = ["255 1 add", "f0<1> f0<2> add f0<3> add"].map(|listed| conjunct(U8, listed));
    let condition = write(&whole(&[U8]), &conjuncts);
    for (readings, answer) in [(1, Ok(Verdict::Held(Above))), (128, Err(14)), (129, Err(13)), (0, Err(15))] {
        assert_eq!(check(&condition, &of_parts(&[vec![0; readings]])), answer, "{readings} readings");
    }
}
