//! Card 5 of document 02: fields narrower than their type, and the conversion of old recipes.

use gate_oracle::build::{of_parts, s, sections, sheet};
use gate_oracle::condition::{write, Condition};
use gate_oracle::fields::{entries, whole, Field};
use gate_oracle::generate::{self, Rng};
use gate_oracle::recipe::{Recipe, LONGEST};
use gate_oracle::sheet::first_beyond;
use gate_oracle::types::width;
use gate_oracle::*;
use std::collections::BTreeMap;

const U8: u8 = 0;
const U16: u8 = 1;
const U32: u8 = 2;
const U64: u8 = 3;
const I8: u8 = 4;
const I16: u8 = 5;
const I64: u8 = 7;

const PASS: Result<Verdict, u8> = Ok(Verdict::Pass);

/// A recipe with these entries of fields, that reads the first into a u8 and has a site on it.
fn recipe_of(entries: &[u8]) -> Vec<u8> {
    of_parts(&[entries.to_vec(), vec![U8], vec![], [s(7, 0, 0, 0), s(10, 0, 0, 0)].concat()])
}

/// A condition with these entries of fields, whose head gives their number, and no conjuncts.
fn condition_of(number: u8, entries: &[u8]) -> Vec<u8> {
    [&[0, 0, 0, 0, number, 0, 0, 0], entries].concat()
}

#[test]
fn second_bytes() {
    for ty in 0..8 {
        let most = 128 + Field::whole(ty).bits;
        for second in 0..=255 {
            let right = (129..=most).contains(&second);
            let entries = [U8, 136, ty, second];
            assert_eq!(derive(&recipe_of(&entries)).err(), (!right).then_some(4), "{ty} {second}");
            let blank = sheet(&[&[], &[]]);
            let answer = if right { PASS } else { Err(12) };
            assert_eq!(check(&condition_of(2, &entries), &blank), answer, "{ty} {second}");
        }
    }
}

#[test]
fn old_entries() {
    assert_eq!(derive(&recipe_of(&[U8])), Err(2));
    assert_eq!(derive(&recipe_of(&[U8, U8])), Err(4));
    assert_eq!(derive(&recipe_of(&[U8, U8, U8])), Err(2));
    assert_eq!(check(&condition_of(1, &[U8]), &sheet(&[&[]])), Err(12));
    assert_eq!(check(&condition_of(2, &[U8, U8]), &sheet(&[&[], &[]])), Err(12));
}

/// What a field holds, and what it does not.
const HELD: [(u8, u8, &[i128], &[i128]); 10] = [
    (U8, 1, &[0, 1], &[2, 255]),
    (U8, 4, &[0, 15], &[16, 255]),
    (U8, 8, &[0, 255], &[]),
    (I8, 1, &[-1, 0], &[1, -2, 127, -128]),
    (I16, 4, &[-8, 7], &[8, -9]),
    (U16, 8, &[255], &[256, 257, 65_535]),
    (U64, 63, &[0, (1 << 63) - 1], &[1 << 63, (1 << 64) - 1]),
    (U64, 64, &[(1 << 64) - 1], &[]),
    (I64, 63, &[-(1 << 62), (1 << 62) - 1], &[-(1 << 62) - 1, 1 << 62]),
    (I64, 64, &[-(1 << 63), (1 << 63) - 1], &[]),
];

#[test]
fn readings_at_the_ends_of_their_bits() {
    for (ty, bits, held, beyond) in HELD {
        let condition = write(&[Field { ty, bits }], &[]);
        let of = |reading: i128| sheet(&[&reading.to_le_bytes()[..width(ty)]]);
        for &reading in held {
            assert_eq!(check(&condition, &of(reading)), PASS, "{ty} {bits} {reading}");
        }
        for &reading in beyond {
            assert_eq!(check(&condition, &of(reading)), Err(13), "{ty} {bits} {reading}");
        }
    }
}

#[test]
fn the_longest_recipe() {
    let parts = |variables| -> [Vec<u8>; 4] {
        [entries(&whole(&[U32; 32])), vec![U32; variables], [U32, 0, 0, 1].repeat(16), s(10, 0, 0, 0).repeat(1_024)]
    };
    let longest = of_parts(&parts(64));
    assert_eq!((longest.len(), LONGEST), (8_416, 8_416));
    assert!(derive(&longest).is_ok());
    assert_eq!(derive(&of_parts(&parts(65))), Err(2));
}

/// Forty fields in as many bytes as an old recipe may have are too many fields, though today's form would be too long.
#[test]
fn too_many_old_fields() {
    let statements = [0, 0, 0, 0, 1, 0, 0, 0].repeat(1_023);
    let old = of_parts(&[vec![U32; 40], vec![U32; 64], [U32, 0, 0, 1].repeat(16), statements]);
    assert_eq!((old.len(), convert(&old)), (8_384, Err(3)));
}

#[test]
fn conversions() {
    let mut tally: BTreeMap<String, usize> = BTreeMap::new();
    for case in 0..20_000 {
        let rng = &mut Rng::new(7_000_000 + case);
        let with_procedures = rng.chance(50);
        let mut recipe = if with_procedures { calls::recipe(rng) } else { generate::recipe(rng) };
        if with_procedures && rng.chance(30) {
            misuses::damage(rng, &mut recipe);
        }
        let old = generate::old_recipe(rng, &recipe);
        let answer = convert(&old);
        *tally
            .entry(answer.as_ref().map_or_else(|number| format!("refused {number}"), |_| "new".into()))
            .or_default() += 1;
        let Ok(new) = answer else { continue };
        // What was converted is read, with the same parts and all bits.
        let read = Recipe::read(&new).unwrap_or_else(|number| panic!("case {case}: refused {number}"));
        assert!(read.fields.iter().all(|field| field.is_whole()), "case {case}");
        let ([types, others @ ..], [_, same @ ..]) = (sections(&old), sections(&new));
        assert_eq!((read.fields, others), (whole(&types), same), "case {case}");
        if types.is_empty() {
            assert_eq!(old, new, "case {case}");
        }
    }
    println!("{tally:?}");
    for answer in ["new".to_string()].into_iter().chain((2..=8).chain([16]).map(|number| format!("refused {number}"))) {
        assert!(tally.get(&answer).is_some_and(|&times| times >= 20), "{answer} is rare");
    }
}

/// Narrow fields and readings beyond them occur, and change no answer but 13.
#[test]
fn bits_change_no_verdict() {
    let (mut narrow, mut beyond) = (0, 0);
    for case in 0..10_000 {
        let rng = &mut Rng::new(8_000_000 + case);
        let Ok(condition) = Condition::read(&generate::condition(rng)) else { continue };
        let sheet = generate::sheet(rng, &condition.fields);
        let wide: Vec<Field> = condition.fields.iter().map(|field| Field::whole(field.ty)).collect();
        let answer = check(&write(&condition.fields, &condition.conjuncts), &sheet);
        let on_wide = check(&write(&wide, &condition.conjuncts), &sheet);
        if first_beyond(&sheet, &condition.fields).is_some() {
            assert_eq!(answer, Err(13), "case {case}");
            beyond += 1;
        } else {
            assert_eq!(answer, on_wide, "case {case}");
            narrow += usize::from(wide != condition.fields);
        }
    }
    println!("{narrow} narrow, {beyond} beyond");
    assert!(narrow > 2_000 && beyond > 100);
}
