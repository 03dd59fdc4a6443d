//! Card 4 of document 02: procedures and calls, and 16.

use gate_oracle::build::{call, constant, procedure, recipe, s};
use gate_oracle::procedures::{Origin, MOST_WRITTEN};
use gate_oracle::recipe::Recipe;
use gate_oracle::*;

const U8: u8 = 0;
const U32: u8 = 2;

const END: [u8; 8] = [13, 0, 0, 0, 0, 0, 0, 0];
/// An end without a block, for 8.
const UNMATCHED: [u8; 8] = END;

fn site(variable: u8) -> [u8; 8] {
    s(10, variable, 0, 0)
}

/// A recipe of one field, eight variables of u32 and one of u8, and a tray of two cells.
fn file(statements: &[[u8; 8]]) -> Vec<u8> {
    recipe(&[U32], &[U32, U32, U32, U32, U32, U32, U32, U32, U8], &[[U32, 0, 2, 0]], statements)
}

fn answer(statements: &[[u8; 8]]) -> Result<(), u8> {
    let file = file(statements);
    let answer = derive(&file).map(drop);
    assert_eq!(derive_quickly(&file).map(drop), answer);
    let ran = run(&file, &build::sheet(&[&[1, 0, 0, 0]]), 100, &[0; 20], &mut [0; 120]).map(drop);
    assert!(ran == answer || answer.is_err_and(|number| (9..=11).contains(&number)), "{ran:?}, {answer:?}");
    answer
}

/// Each cause of 16, alone and with a block unmatched.
#[test]
fn causes() {
    let doubles = [procedure(1, 4, 2), s(2, 5, 4, 4), END];
    let rows: [(&str, Vec<[u8; 8]>); 13] = [
        ("late", [&[constant(0, 1)], &doubles[..]].concat()),
        ("inside another", vec![procedure(1, 4, 2), procedure(1, 6, 2), END, END]),
        ("inside an if", [&[s(11, 0, 0, 0)], &doubles[..], &[s(12, 0, 0, 0), END]].concat()),
        ("uses a variable of the recipe", vec![procedure(1, 4, 2), s(1, 5, 0, 0), END]),
        ("uses another procedure's variable", [&doubles[..], &[procedure(1, 6, 2), s(1, 7, 5, 0), END]].concat()),
        ("tests a variable outside", vec![procedure(0, 4, 1), s(14, 0, 0, 0), END, END]),
        ("shares a variable with another", [&doubles[..], &[procedure(1, 5, 2), END]].concat()),
        ("shares one with a statement outside", [&doubles[..], &[site(5)]].concat()),
        ("shares one with a call outside", [&doubles[..], &[call(0, 0, &[4])]].concat()),
        ("has no own variable", vec![procedure(0, 4, 0), END]),
        ("has fewer than its parameters", vec![procedure(3, 4, 2), END]),
        ("calls itself", vec![procedure(1, 4, 2), call(5, 0, &[4]), END]),
        ("calls a later one", vec![procedure(1, 4, 2), call(5, 1, &[4]), END, procedure(1, 6, 2), END]),
    ];
    assert_eq!(answer(&doubles), Ok(()));
    for (what, statements) in rows {
        assert_eq!(answer(&statements), Err(16), "{what}");
        assert_eq!(answer(&[&statements[..], &[UNMATCHED]].concat()), Err(8), "{what}, and a block unmatched");
    }
}

/// Checks 5 and 6 of the two kinds.
#[test]
fn operands_and_types() {
    let own = [procedure(2, 4, 3), END];
    let with = |statements: &[[u8; 8]]| answer(&[&own[..], statements].concat());
    assert_eq!(with(&[call(0, 0, &[1, 2])]), Ok(()));
    assert_eq!(answer(&[procedure(5, 4, 4), END]), Err(5), "five parameters");
    assert_eq!(answer(&[procedure(0, 5, 5), END]), Err(5), "own variables past the last");
    assert_eq!(answer(&[procedure(0, 255, 255), END]), Err(5), "far past it");
    assert_eq!(answer(&[[15, 1, 4, 2, 1, 0, 0, 0], END]), Err(5), "an unused byte");
    assert_eq!(with(&[call(9, 0, &[1, 2])]), Err(5), "a target that is none");
    assert_eq!(with(&[call(0, 1, &[1, 2])]), Err(5), "no such procedure");
    assert_eq!(with(&[[16, 0, 0, 1, 1, 2, 0, 0]]), Err(5), "c is not zero");
    assert_eq!(with(&[call(0, 0, &[1, 9])]), Err(5), "an argument that is none");
    assert_eq!(with(&[call(0, 0, &[1, 2, 3])]), Err(5), "an argument too many");
    assert_eq!(with(&[call(0, 0, &[1, 8])]), Err(6), "an argument's type");
    assert_eq!(with(&[call(8, 0, &[1, 2])]), Err(6), "the target's type");
    assert_eq!(answer(&[procedure(0, 4, 0), END, call(8, 0, &[])]), Err(16), "6 passes over: no own variables");
    assert_eq!(answer(&[procedure(3, 4, 2), END, call(8, 0, &[8, 8, 8])]), Err(16), "6 passes over: too few");
    assert_eq!(answer(&[call(0, 0, &[1]), procedure(1, 4, 2), END]), Err(16), "a late one has its number");
}

/// Procedures that each call the one before twice, from one whose body has so many statements.
fn doubling(times: u8, body: usize) -> Vec<[u8; 8]> {
    let mut code = vec![procedure(0, 1, 1)];
    (0..body).for_each(|_| code.push(constant(1, 0)));
    code.push(END);
    for number in 0..times {
        let own = number + 2;
        code.extend([procedure(0, own, 1), call(own, number, &[]), call(own, number, &[]), END]);
    }
    code
}

fn written(times: u8, body: usize, calls: usize) -> Result<usize, u8> {
    let mut code = doubling(times, body);
    (0..calls).for_each(|_| code.push(call(0, times, &[])));
    Recipe::read(&recipe(&[], &[U32; 64], &[], &code)).map(|recipe| recipe.written.code.statements.len())
}

/// The written-out form may have 16,384 statements. However long it would be, it is refused at once.
#[test]
fn length() {
    assert_eq!(written(0, 126, 128), Ok(MOST_WRITTEN));
    assert_eq!(written(0, 127, 127), Ok(127 * 129));
    assert_eq!(written(0, 127, 128), Err(16));
    assert_eq!(written(12, 0, 1), Ok(16_382));
    assert_eq!(written(12, 1, 1), Err(16));
    assert_eq!(written(60, 0, 1), Err(16));
    assert_eq!(written(60, 0, 0), Ok(0), "nothing is called");
}

/// The written-out form nests at most 4 deep, and the procedures themselves do not count.
#[test]
fn depth() {
    let whiles = |variable: u8, deep: usize, inside: &[[u8; 8]]| {
        [&vec![s(14, variable, 0, 0); deep], inside, &vec![END; deep]].concat()
    };
    let nested = |inner: usize, outer: usize| {
        let mut code = vec![procedure(0, 4, 1)];
        code.extend(whiles(4, inner, &[]));
        code.push(END);
        code.extend(whiles(0, outer, &[call(0, 0, &[])]));
        answer(&code)
    };
    assert_eq!(nested(4, 0), Ok(()));
    assert_eq!(nested(2, 2), Ok(()));
    assert_eq!(nested(1, 3), Ok(()));
    assert_eq!(nested(1, 4), Err(16));
    assert_eq!(nested(4, 1), Err(16));
    assert_eq!(nested(5, 0), Err(8));
    assert_eq!(nested(0, 4), Ok(()));
    let mut uncalled = vec![procedure(0, 4, 1)];
    uncalled.extend(whiles(4, 4, &[]));
    uncalled.extend([END, procedure(0, 5, 1), s(14, 5, 0, 0), call(5, 0, &[]), END, END]);
    assert_eq!(answer(&uncalled), Ok(()), "too deep where nobody calls it");
}

/// Two calls of a procedure with one parameter and two more own variables: places, variables and origins.
#[test]
fn written_out() {
    let code = [procedure(1, 4, 3), s(8, 5, 0, 5), END, call(0, 0, &[1]), s(10, 0, 0, 0), call(1, 0, &[0])];
    let recipe = Recipe::read(&file(&code)).unwrap();
    let written = &recipe.written;
    let kinds: Vec<u8> = written.code.statements.iter().map(|s| s.kind).collect();
    assert_eq!(kinds, [1, 0, 0, 8, 1, 10, 1, 0, 0, 8, 1]);
    let own: Vec<u16> = written.code.statements.iter().map(|s| s.a).collect();
    assert_eq!(own, [9, 10, 11, 10, 0, 0, 15, 16, 17, 16, 1]);
    let labels: Vec<Option<u16>> = written
        .origins
        .iter()
        .map(|origin| match origin {
            Origin::Step(label) => Some(*label),
            Origin::Silent => None,
        })
        .collect();
    assert_eq!(labels, [Some(3), None, None, Some(1), None, Some(4), Some(5), None, None, Some(1), None]);
}

/// What the written-out assignments do to the conditions.
#[test]
fn conditions() {
    let reads = [procedure(0, 4, 1), s(7, 4, 0, 0), END];
    let loads = [procedure(0, 4, 2), s(8, 5, 0, 4), END];
    let doubles = [procedure(1, 4, 2), s(2, 5, 4, 4), END];
    let doubles_itself = [procedure(0, 4, 2), s(2, 4, 4, 4), s(1, 5, 4, 0), END];
    let sum = [s(2, 0, 0, 1), site(0)];
    let rows: [(&str, Vec<[u8; 8]>, &str); 4] = [
        (
            "each call has a reading of its own",
            [&reads[..], &[call(0, 0, &[]), call(1, 0, &[])], &sum].concat(),
            "conjuncts 1\n0: f0<1>:u32 f0<2>:u32 add:u32\n",
        ),
        (
            "the target is among the arguments",
            [&doubles[..], &[s(7, 0, 0, 0), call(0, 0, &[0]), site(0)]].concat(),
            "conjuncts 1\n0: f0<1>:u32 f0<1>:u32 add:u32\n",
        ),
        (
            "an own variable that is not set is 0 at each call, so that the while settles",
            [&doubles_itself[..], &[s(14, 0, 0, 0), call(1, 0, &[]), END, site(1)]].concat(),
            "conjuncts 2\n0: 0:u32\n1: 0:u32 0:u32 add:u32\n",
        ),
        (
            "the same load in two calls is two labels",
            [&loads[..], &[s(7, 2, 0, 0), s(9, 0, 3, 2), call(0, 0, &[]), call(1, 0, &[])], &sum].concat(),
            "conjuncts 4\n0: 0:u32 0:u32 add:u32\n1: 0:u32 f0<1>:u32 add:u32\n2: f0<1>:u32 0:u32 add:u32\n\
             3: f0<1>:u32 f0<1>:u32 add:u32\n",
        ),
    ];
    for (what, code, listed) in rows {
        assert_eq!(listing(&file(&code)), listed, "{what}");
    }
}

/// The end, the steps and the labels of the records of a run.
fn ran(code: &[[u8; 8]], limit: u32, log: usize) -> (u8, u64, Vec<u8>) {
    let (file, sheet) = (file(code), build::sheet(&[&[7, 0, 0, 0]]));
    let mut records = vec![0; 12 * log];
    let Ran { end, steps, records: count } = run(&file, &sheet, limit, &[0; 2], &mut records).unwrap();
    let labels: Vec<u8> = records.chunks(12).take(usize::try_from(count).unwrap()).map(|record| record[0]).collect();
    let notes = whole_run(&file, &sheet, limit, &[0; 2], 12 * log).unwrap();
    assert_eq!(notes.iter().map(|note| u8::try_from(note.label).unwrap()).collect::<Vec<u8>>(), labels);
    (end, steps, labels)
}

/// A call is one step besides its body's; coming back is none.
#[test]
fn steps() {
    let body = [procedure(1, 4, 2), s(2, 5, 4, 4), site(5), END];
    let code = [&body[..], &[s(7, 0, 0, 0), call(1, 0, &[0]), call(1, 0, &[1]), site(1)]].concat();
    assert_eq!(ran(&code, 100, 9), (0, 8, vec![2, 2, 7]));
    assert_eq!(ran(&code, 8, 9), (0, 8, vec![2, 2, 7]));
    assert_eq!(ran(&code, 7, 9), (1, 7, vec![2, 2]));
    assert_eq!(ran(&code, 4, 9), (1, 4, vec![2]));
    assert_eq!(ran(&code, 1, 9), (1, 1, vec![]));
    assert_eq!(ran(&code, 100, 1), (4, 6, vec![2]));
    assert_eq!(ran(&body, 0, 0), (0, 0, vec![]), "procedures alone");
    let ends_with_a_call = [&body[..1], &[END, call(1, 0, &[1])]].concat();
    assert_eq!(ran(&ends_with_a_call, 1, 0), (0, 1, vec![]), "coming back is no step");
    assert_eq!(ran(&ends_with_a_call, 0, 0), (1, 0, vec![]));
}

/// A mark goes with a value through a call; an own variable is 0 without a mark at each call.
#[test]
fn marks() {
    let keeps = [procedure(1, 4, 3), site(5), s(1, 5, 4, 0), s(1, 6, 4, 0), END];
    let overflow = [constant(0, 1), s(3, 0, 1, 0)];
    let code = [&keeps[..], &overflow, &[call(2, 0, &[0]), site(2), call(3, 0, &[1]), site(3)]].concat();
    let mut log = [0; 48];
    let ran = run(&file(&code), &build::sheet(&[&[]]), 100, &[], &mut log).unwrap();
    assert_eq!((ran.end, ran.records), (0, 4));
    let marks: Vec<u8> = log.chunks(12).map(|record| record[2]).collect();
    assert_eq!(marks, [0, 1, 0, 0]);
}
