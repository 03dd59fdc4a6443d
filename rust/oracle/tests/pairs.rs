//! Card 3 of document 02: the first wrong pair of a sheet.

use gate_oracle::build::of_parts;
use gate_oracle::fields::whole;
use gate_oracle::generate::{self, Rng};
use gate_oracle::sheet::{self, Sheet, MOST_READINGS};
use gate_oracle::types::width;
use std::collections::BTreeMap;

const CASES: u64 = 200_000;

const U8: u8 = 0;
const U16: u8 = 1;
const U64: u8 = 3;
const I8: u8 = 4;
const I64: u8 = 7;

const HIGHEST: u32 = u32::MAX;

/// What a row shows, the fields' types, the pairs, the file's length, and the first wrong pair.
type Row = (&'static str, &'static [u8], &'static [(u32, u32)], usize, Option<usize>);

const BEGINNINGS: [Row; 7] = [
    ("a gap, which the next part fills", &[U8; 3], &[(24, 1), (26, 0), (25, 1)], 26, Some(1)),
    ("a gap before the first part", &[U8; 2], &[(17, 1), (18, 1)], 19, Some(0)),
    ("the first part begins in the pairs", &[U8; 2], &[(15, 2), (17, 1)], 18, Some(0)),
    ("a part begins in the one before", &[U8; 3], &[(24, 2), (26, 2), (27, 1)], 28, Some(2)),
    ("a blank field has its offset too", &[U8; 3], &[(24, 1), (0, 0), (25, 1)], 26, Some(1)),
    ("the highest offset", &[U8; 2], &[(16, 1), (HIGHEST, 0)], 17, Some(1)),
    ("the highest offset and length", &[U8; 2], &[(HIGHEST, HIGHEST), (HIGHEST, HIGHEST)], 16, Some(0)),
];

const LENGTHS: [Row; 9] = [
    ("too long, then begins elsewhere", &[U8; 3], &[(24, 1), (25, 200), (9, 0)], 26, Some(1)),
    ("no whole reading", &[U8, U16, U8], &[(24, 1), (25, 3), (28, 1)], 29, Some(1)),
    ("no whole reading at the end", &[U16; 2], &[(16, 2), (18, 3)], 21, Some(1)),
    ("half of the first reading", &[I64], &[(8, 4)], 12, Some(0)),
    ("128 readings", &[U8; 2], &[(16, 128), (144, 128)], 272, None),
    ("129 readings", &[U8; 2], &[(16, 128), (144, 129)], 273, Some(1)),
    ("128 readings of 8 bytes", &[U64, I8], &[(16, 1_024), (1_040, 1)], 1_041, None),
    ("129 readings of 8 bytes", &[U64, I8], &[(16, 1_032), (1_048, 1)], 1_049, Some(0)),
    ("an end above all numbers of 4 bytes", &[U8; 2], &[(16, HIGHEST - 15), (0, 0)], 16, Some(0)),
];

const ENDS: [Row; 9] = [
    ("past the file, then begins elsewhere", &[U8; 3], &[(24, 1), (25, 100), (9, 0)], 26, Some(1)),
    ("the last part is cut", &[U8; 3], &[(24, 1), (25, 1), (26, 2)], 27, Some(2)),
    ("a blank field behind a part that is cut", &[U8; 3], &[(24, 1), (25, 3), (28, 0)], 27, Some(1)),
    ("2 bytes, which say nothing", &[U8; 3], &[(0, 0); 3], 2, Some(0)),
    ("2 bytes, which say where the pairs end", &[U8; 3], &[(24, 1), (25, 1), (26, 1)], 2, Some(0)),
    ("the last pair is cut", &[U8; 3], &[(24, 0); 3], 23, Some(0)),
    ("no bytes", &[U8], &[(8, 0)], 0, Some(0)),
    ("blank fields alone", &[U8; 3], &[(24, 0); 3], 24, None),
    ("no fields", &[], &[], 0, None),
];

/// The file of some pairs, with parts of zeros up to a length, or cut there.
fn file(pairs: &[(u32, u32)], length: usize) -> Vec<u8> {
    let mut file: Vec<u8> =
        pairs.iter().flat_map(|(offset, length)| [offset.to_le_bytes(), length.to_le_bytes()]).flatten().collect();
    file.resize(length, 0);
    file
}

/// The refusal of a sheet, if any.
fn refusal(bytes: &[u8], types: &[u8]) -> Option<u8> {
    Sheet::read(bytes, &whole(types)).err()
}

/// The first wrong pair of a sheet for fields with all bits of these types.
fn first_wrong(bytes: &[u8], types: &[u8]) -> Option<usize> {
    sheet::first_wrong(bytes, &whole(types))
}

#[test]
fn witnesses() {
    for (what, types, pairs, length, wrong) in BEGINNINGS.into_iter().chain(LENGTHS).chain(ENDS) {
        let bytes = file(pairs, length);
        assert_eq!(first_wrong(&bytes, types), wrong, "{what}");
        assert_eq!(refusal(&bytes, types), wrong.map(|_| 13), "{what}");
    }
}

/// Bytes behind the last part are refused, and no pair is wrong.
#[test]
fn stray_bytes() {
    for (types, fields) in [(&[][..], vec![]), (&[U8], vec![vec![]]), (&[U8, U16], vec![vec![1], vec![2, 0]])] {
        let mut bytes = of_parts(&fields);
        assert_eq!((first_wrong(&bytes, types), refusal(&bytes, types)), (None, None), "{fields:?}");
        bytes.push(0);
        assert_eq!((first_wrong(&bytes, types), refusal(&bytes, types)), (None, Some(13)), "{fields:?}");
    }
}

/// What may be wrong of a pair.
const WRONGS: [&str; 4] =
    ["begins elsewhere", "has no whole number of readings", "has too many readings", "runs past the file"];

/// The first wrong pair and all that is wrong of it, or else where the last part ends: the pairs in turn, with the
/// end so far.
fn in_turn(bytes: &[u8], types: &[u8]) -> Result<usize, (usize, Vec<&'static str>)> {
    let mut whole = bytes.to_vec();
    whole.resize(bytes.len().max(8 * types.len()), 0);
    let mut end = 8 * types.len();
    for (i, (pair, &ty)) in whole.chunks_exact(8).zip(types).enumerate() {
        let number = |four: &[u8]| u32::from_le_bytes(four.try_into().unwrap()) as usize;
        let (offset, length) = (number(&pair[..4]), number(&pair[4..]));
        let tests = [
            offset != end,
            !length.is_multiple_of(width(ty)),
            length.div_ceil(width(ty)) > MOST_READINGS,
            offset + length > bytes.len(),
        ];
        let wrongs: Vec<&str> = WRONGS.into_iter().zip(tests).filter_map(|(wrong, met)| met.then_some(wrong)).collect();
        if !wrongs.is_empty() {
            return Err((i, wrongs));
        }
        end += length;
    }
    Ok(end)
}

/// A sheet for some types: as made, damaged anywhere, or damaged in its pairs.
fn generated(rng: &mut Rng) -> (Vec<u8>, Vec<u8>) {
    let palette = rng.pick(&[&[0, 1, 2, 3, 4, 5, 6, 7][..], &[0, 4], &[1, 6], &[3, 7]]);
    let types: Vec<u8> = (0..rng.pick(&[0, 1, 2, 3, 3, 4, 6, 32])).map(|_| rng.pick(palette)).collect();
    let mut sheet = generate::sheet(rng, &whole(&types));
    match rng.below(8) {
        0 => {}
        1 | 2 => generate::damage(rng, &mut sheet),
        _ => generate::damage_pairs(rng, &mut sheet, &whole(&types)),
    }
    (sheet, types)
}

/// What to count of a sheet: what is wrong, if it is one thing alone, and where.
fn told(found: &Result<usize, (usize, Vec<&str>)>, length: usize, pairs: usize) -> String {
    match found {
        Ok(end) if *end == length => "sheet is read".to_string(),
        Ok(_) => "sheet is wrong at its end alone".to_string(),
        Err((i, wrongs)) => {
            let place = match i {
                0 => "first",
                i if i + 1 == pairs => "last",
                _ => "middle",
            };
            match wrongs[..] {
                [wrong] => format!("{place} pair {wrong}"),
                _ => format!("{place} pair is wrong in several ways"),
            }
        }
    }
}

#[test]
fn generated_sheets() {
    let mut tally: BTreeMap<String, usize> = BTreeMap::new();
    for seed in 0..CASES {
        let (bytes, types) = generated(&mut Rng::new(2_000_000 + seed));
        let found = in_turn(&bytes, &types);
        assert_eq!(first_wrong(&bytes, &types), found.as_ref().err().map(|(i, _)| *i), "seed {seed}");
        let right = found.as_ref().is_ok_and(|&end| end == bytes.len());
        assert_eq!(refusal(&bytes, &types), (!right).then_some(13), "seed {seed}");
        *tally.entry(told(&found, bytes.len(), types.len())).or_default() += 1;
    }
    for (what, times) in &tally {
        println!("{times:7} the {what}");
    }
    let pairs = WRONGS.into_iter().flat_map(|wrong| ["first", "middle", "last"].map(|at| format!("{at} pair {wrong}")));
    for what in pairs.chain(["sheet is read".to_string(), "sheet is wrong at its end alone".to_string()]) {
        assert!(tally.get(&what).is_some_and(|&times| times >= 500), "the {what} too seldom");
    }
}
