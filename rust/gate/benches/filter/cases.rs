//! The conjuncts and sheets of the tables.

use gate_oracle::build;
use gate_oracle::condition::{node, write, READING};
use gate_oracle::fields::Field;
use gate_oracle::types::{width, ADD, CONSTANT, CONVERT, DIVIDE, MULTIPLY, SUBTRACT};
use gate_oracle::{Cause, Verdict};

const U32: u8 = 2;
const U64: u8 = 3;
const I32: u8 = 6;
const I64: u8 = 7;

/// A line of a table: what it shows, the files, and the verdict.
pub struct Case {
    pub name: &'static str,
    pub condition: Vec<u8>,
    pub sheet: Vec<u8>,
    pub verdict: Verdict,
}

/// A sheet that passes, of fields of one type.
fn case(name: &'static str, ty: u8, conjuncts: &[Vec<u64>], fields: &[Vec<i64>]) -> Case {
    let bytes = |readings: &Vec<i64>| -> Vec<u8> {
        readings.iter().flat_map(|reading| reading.to_le_bytes()[..width(ty)].to_vec()).collect()
    };
    let sheet = build::of_parts(&fields.iter().map(bytes).collect::<Vec<_>>());
    Case { name, condition: write(&vec![Field::whole(ty); fields.len()], conjuncts), sheet, verdict: Verdict::Pass }
}

/// One conjunct of a field with 32 readings.
fn usual(name: &'static str, ty: u8, nodes: Vec<u64>, reading: impl Fn(i64) -> i64) -> Case {
    case(name, ty, &[nodes], &[(0..32).map(reading).collect()])
}

/// One conjunct of a field with so many readings, 1 and up.
fn counted(name: &'static str, nodes: Vec<u64>, readings: i64) -> Case {
    case(name, U32, &[nodes], &[(1..=readings).collect()])
}

fn atom(ty: u8, n: u32) -> u64 {
    node(READING, ty, 0, n)
}

/// The first atom of a field.
fn of(field: u16) -> u64 {
    node(READING, U32, field, 1)
}

fn op(kind: u8, ty: u8) -> u64 {
    node(kind, ty, 0, 0)
}

/// Constants and the operations by them.
fn by(ty: u8, list: &[(u8, i32)]) -> Vec<u64> {
    list.iter().flat_map(|&(kind, value)| [node(CONSTANT, ty, 0, value as u32), op(kind, ty)]).collect()
}

/// The sum of atoms, which stand first, and a tail up to so many nodes.
fn sum_of(ty: u8, atoms: impl IntoIterator<Item = u64>, tail: &[u64], size: usize) -> Vec<u64> {
    let mut nodes: Vec<u64> = atoms.into_iter().collect();
    (1..nodes.len()).for_each(|_| nodes.push(op(ADD, ty)));
    let rest = size - nodes.len();
    nodes.extend(tail.iter().cycle().take(rest));
    nodes
}

/// The sum of so many atoms of one field and a tail: 119 nodes.
fn sum(ty: u8, atoms: u32, tail: &[u64]) -> Vec<u64> {
    sum_of(ty, (1..=atoms).map(|n| atom(ty, n)), tail, 119)
}

/// The sum of atoms that stand apart: an atom, then so many times a constant and an addition.
fn spread(atoms: u32, pairs: usize) -> Vec<u64> {
    let mut nodes = Vec::new();
    for n in 1..=atoms {
        nodes.push(atom(U32, n));
        (0..pairs).for_each(|_| nodes.extend(by(U32, &[(ADD, 1)])));
        if n > 1 {
            nodes.push(op(ADD, U32));
        }
    }
    nodes
}

/// The sum of 4 atoms, a sum of the first one and constants, which is 111 nodes long, and the sum of both.
fn first_atom_again() -> Vec<u64> {
    let mut nodes = sum_of(U32, (1..=4).map(|n| atom(U32, n)), &[], 7);
    nodes.push(atom(U32, 1));
    (0..55).for_each(|_| nodes.extend(by(U32, &[(ADD, 1)])));
    nodes.push(op(ADD, U32));
    nodes
}

/// The sum of 30 products of two different atoms of 4.
fn products_of_pairs() -> Vec<u64> {
    let pairs = [(1, 2), (3, 4), (1, 3), (2, 4), (1, 4), (2, 3)];
    let mut nodes = Vec::new();
    for (i, &(left, right)) in pairs.iter().cycle().take(30).enumerate() {
        nodes.extend([atom(U32, left), atom(U32, right), op(MULTIPLY, U32)]);
        if i > 0 {
            nodes.push(op(ADD, U32));
        }
    }
    nodes
}

const MIXED: [(u8, i32); 4] = [(ADD, 9), (MULTIPLY, 3), (SUBTRACT, 7), (DIVIDE, 3)];
const MINUS: [(u8, i32); 4] = [(ADD, 9), (MULTIPLY, -3), (SUBTRACT, 7), (DIVIDE, -3)];

/// Operations by constants on the sum of 4 atoms.
fn tails() -> Vec<Case> {
    let four = |ty: u8, list: &[(u8, i32)]| sum(ty, 4, &by(ty, list));
    let converted = sum(U32, 4, &[op(CONVERT, U64), op(CONVERT, U32)]);
    let kept = [(ADD, 9), (MULTIPLY, 1), (SUBTRACT, 7), (DIVIDE, 1)];
    let small = |i: i64| 1 + i;
    let signs = |i: i64| (i - 16) * 7;
    let above = |i: i64| (7 << 59) + i;
    vec![
        usual("u32 additions", U32, four(U32, &[(ADD, 1)]), small),
        usual("u32 and u64, conversions", U32, converted, small),
        usual("u32 products, sums, quotients", U32, four(U32, &[(MULTIPLY, 3), (ADD, 5), (DIVIDE, 3)]), small),
        usual("u32 + - x /", U32, four(U32, &MIXED), small),
        usual("i32 + - x /, mixed signs", I32, four(I32, &MINUS), signs),
        usual("i64 + - x /, mixed signs", I64, four(I64, &MINUS), signs),
        usual("u64 + - x /", U64, four(U64, &MIXED), small),
        usual("u64 + - x / above 2^63", U64, four(U64, &kept), above),
        usual("u64 additions above 2^63", U64, four(U64, &[(ADD, 1)]), above),
        usual("i64 additions, mixed signs", I64, four(I64, &[(ADD, 5)]), signs),
        usual("u32 quotients", U32, four(U32, &[(DIVIDE, 1)]), |i| 1_000_000_000 + i),
        usual("i64 quotients, mixed signs", I64, four(I64, &[(DIVIDE, -3)]), |i| (i - 16) * 1_000_000_007),
    ]
}

/// Conjuncts with their atoms in other places, and other numbers of atoms.
fn placements() -> Vec<Case> {
    let added: Vec<u64> = (1..=4).flat_map(|n| [atom(U32, n), op(ADD, U32)]).collect();
    let divided = [by(U32, &[(ADD, -294_967_296)]), vec![atom(U32, 4), op(DIVIDE, U32)]].concat();
    let mixed = by(U32, &MIXED);
    let small = |i: i64| 1 + i;
    vec![
        usual("u32 additions of atoms", U32, sum(U32, 4, &added), small),
        usual("u32 sums and quotients by the last atom", U32, sum(U32, 4, &divided), |i| 16 + i),
        usual("u32 products of two atoms, summed", U32, products_of_pairs(), small),
        usual("u32 additions, atoms 29 nodes apart", U32, spread(4, 14), small),
        usual("u32 additions, 111 later nodes of the first atom only", U32, first_atom_again(), small),
        counted("u32 + - x /, 10 atoms of 4 readings", sum(U32, 10, &mixed), 4),
        counted("u32 + - x /, 20 atoms of 2 readings", sum(U32, 20, &mixed), 2),
        counted("u32 additions, 20 atoms of 2 readings 6 nodes apart", spread(20, 2), 2),
        case(
            "u32 + - x /, fields of 64, 64, 128 and 2 readings",
            U32,
            &[sum_of(U32, (0..4).map(of), &mixed, 119)],
            &[64, 64, 128, 2].map(|count| (1..=count).collect()),
        ),
    ]
}

/// Conjuncts of 119 nodes that pass with 1,048,576 combinations.
pub fn large() -> Vec<Case> {
    [tails(), placements()].into_iter().flatten().collect()
}

/// So many fields with so many readings each, 1 and up.
fn filled(name: &'static str, fields: usize, readings: i64, conjuncts: &[Vec<u64>]) -> Case {
    case(name, U32, conjuncts, &vec![(1..=readings).collect(); fields])
}

/// Additions on the sum of 4 atoms of one field, of whose readings one is large.
fn with_large(name: &'static str, place: i64, large: i64) -> Case {
    let reading = |i: i64| if i == place { large } else { 1 + i };
    usual(name, U32, sum(U32, 4, &by(U32, &[(ADD, 1)])), reading)
}

/// A sheet that one combination holds: that of 4 times the large reading.
fn held(name: &'static str, place: i64) -> Case {
    Case { verdict: Verdict::Held(Cause::Above), ..with_large(name, place, 1 << 30) }
}

/// The same conjunct on a sheet that just passes: the large reading is 15 less, and 56 is added to 4 times it.
fn just_passes(name: &'static str, place: i64) -> Case {
    with_large(name, place, (1 << 30) - 15)
}

/// The product of the first atoms of fields, and additions up to so many nodes.
fn product(fields: &[u16], size: usize) -> Vec<u64> {
    let mut nodes = vec![of(fields[0])];
    fields[1..].iter().for_each(|&field| nodes.extend([of(field), op(MULTIPLY, U32)]));
    while nodes.len() < size {
        nodes.extend(by(U32, &[(ADD, 1)]));
    }
    nodes
}

/// Sheets of other sizes, and sheets that are held.
pub fn sheets() -> Vec<Case> {
    let mixed = |fields: u16| sum_of(U32, (0..fields).map(of), &by(U32, &MIXED), 29);
    let three = [product(&[0, 1], 5), product(&[1, 2, 3], 7), product(&[0, 1, 2, 3], 9)];
    vec![
        filled("2 fields of 1 reading, 7 nodes", 2, 1, &[product(&[0, 1], 7)]),
        filled("4 fields of 1 reading, 3 conjuncts of 5, 7 and 9 nodes", 4, 1, &three),
        filled("2 fields of 8 readings, 7 nodes", 2, 8, &[product(&[0, 1], 7)]),
        filled("2 fields of 96 (9,216 combinations), 7 nodes", 2, 96, &[product(&[0, 1], 7)]),
        filled("2 fields of 96, 29 nodes + - x /", 2, 96, &[mixed(2)]),
        filled("3 fields of 96 (884,736 combinations), 7 nodes", 3, 96, &[product(&[0, 1, 2], 7)]),
        filled("3 fields of 96, 29 nodes + - x /", 3, 96, &[mixed(3)]),
        filled("4 fields of 30 (810,000 combinations), 11 nodes", 4, 30, &[product(&[0, 1, 2, 3], 11)]),
        held("119 nodes, held by the first of 1,048,576 combinations", 0),
        held("the same, held in the middle", 16),
        held("the same, held by the last", 31),
        just_passes("the same with a last reading that just passes", 31),
    ]
}

/// As many atoms as there can be with more than one reading.
pub fn deepest() -> Case {
    counted("20 atoms", sum(U32, 20, &by(U32, &[(ADD, 1)])), 2)
}
