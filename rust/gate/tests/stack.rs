//! Every call on a thread with the stack that include/gate.h names; a stack that is too short ends the
//! process. The recipe has the deepest walk, four nested whiles, and the deepest descent of the gate, a
//! sum of twenty readings, once on a sheet that passes and once on one that is held.

use gate::{check, derive, guarded, run, scratch, Cause, Choices, End, Guarded, Verdict, CONDITION};
use gate_oracle::build::{recipe, s};

const STACK: usize = 524_288;
const U32: u8 = 2;

fn deepest() -> Vec<u8> {
    let mut code: Vec<[u8; 8]> = (0..20).map(|v| s(7, v, 0, 0)).collect();
    code.extend((1..20).map(|v| s(2, 0, 0, v)));
    code.extend((0..4).map(|_| s(14, 63, 0, 0)));
    code.push(s(10, 0, 0, 0));
    code.extend((0..4).map(|_| s(13, 0, 0, 0)));
    code.push(s(10, 0, 0, 0));
    recipe(&[U32], &[U32; 64], &[], &code)
}

/// Two readings, 1 and 2; and 1 and 2^28, of which 16 are too big.
const SHEET: [u8; 16] = [8, 0, 0, 0, 8, 0, 0, 0, 1, 0, 0, 0, 2, 0, 0, 0];
const HELD: [u8; 16] = [8, 0, 0, 0, 8, 0, 0, 0, 1, 0, 0, 0, 0, 0, 0, 16];

fn all_calls() {
    let (recipe, choices) = (deepest(), Choices::from([0; 20]));
    let (mut condition, mut log, mut work) = (vec![0; CONDITION], vec![0; 240], scratch());
    let length = derive(&recipe, &mut condition, &mut work).unwrap();
    assert_eq!(check(&condition[..length], &SHEET), Ok(Verdict::Pass));
    assert_eq!(check(&condition[..length], &HELD), Ok(Verdict::Held(Cause::TooBig)));
    let ran = run(&recipe, &SHEET, 1_000, &choices, &mut log, &mut work).unwrap();
    assert_eq!((ran.end, ran.records), (End::Finished, 1));
    let again = guarded(&recipe, &SHEET, 1_000, &choices, &mut log, &mut condition, &mut work);
    assert_eq!(again, Ok(Guarded::Ran(ran)));
    let held = guarded(&recipe, &HELD, 1_000, &choices, &mut log, &mut condition, &mut work);
    assert_eq!(held, Ok(Guarded::Held));
}

#[test]
fn the_named_stack_is_enough() {
    let thread = std::thread::Builder::new().stack_size(STACK).spawn(all_calls).unwrap();
    thread.join().unwrap();
}
