//! The quick forms of the library against plain ones: arithmetic in `i128`, the
//! analysis on trees without any short cut, and the gate by counting through all
//! combinations in order.

#![allow(
    clippy::cast_possible_truncation,
    clippy::cast_possible_wrap,
    clippy::cast_sign_loss,
    reason = "the numbers of a test are small, and values wrap to their types"
)]

use gate_oracle::condition::{field, kind, rest, ty, Condition};
use gate_oracle::fields::Field;
use gate_oracle::generate::{self, Rng};
use gate_oracle::types::*;
use gate_oracle::*;
use std::collections::{BTreeMap, BTreeSet};

fn range(ty: u8) -> (i128, i128) {
    let bits = [8, 16, 32, 64][ty as usize % 4];
    if ty < 4 {
        (0, (1 << bits) - 1)
    } else {
        (-(1 << (bits - 1)), (1 << (bits - 1)) - 1)
    }
}

/// A step in whole numbers, or nothing for a zero divisor.
fn whole(kind: u8, left: i128, right: i128) -> Option<i128> {
    match kind {
        ADD => Some(left + right),
        SUBTRACT => Some(left - right),
        // Only u64 goes past an i128, and then it is above every type.
        MULTIPLY => Some(left.saturating_mul(right)),
        DIVIDE => left.checked_div(right),
        _ => Some(left),
    }
}

/// A step in whole numbers, or why it overflows.
fn whole_step(kind: u8, ty: u8, left: i128, right: i128) -> Result<i128, Cause> {
    let (low, high) = range(ty);
    match whole(kind, left, right) {
        None => Err(Cause::NoDivisor),
        Some(result) if result > high => Err(Cause::Above),
        Some(result) if result < low => Err(Cause::Below),
        Some(result) => Ok(result),
    }
}

#[test]
fn arithmetic() {
    let mut rng = Rng::new(7);
    for ty in 0..8u8 {
        let (low, high) = range(ty);
        let mut values: Vec<i128> = Vec::new();
        if high - low < 256 {
            values.extend(low..=high);
        } else {
            for edge in [0, low, high, high / 2, low / 2, 46_341, 65_536, 1 << 31, 1 << 32, 0xb504_f334] {
                values.extend(edge - 3..=edge + 3);
            }
            values.extend((0..60).map(|_| number(ty, wrap(ty, rng.draw() >> rng.below(64)))));
            values.retain(|&v| low <= v && v <= high);
        }
        let modulus = high - low + 1;
        let wrapped = |n: i128| (n - low).rem_euclid(modulus) + low;
        for &x in &values {
            assert_eq!(number(ty, x as u64), x);
            for to in 0..8u8 {
                let (low, high) = range(to);
                assert_eq!(fits(ty, to, x as u64), low <= x && x <= high);
                let converted = step(CONVERT, to, ty, x as u64, x as u64);
                assert_eq!(converted.map(|value| number(to, value)), whole_step(CONVERT, to, x, x));
                let back = (x - low).rem_euclid(high - low + 1) + low;
                assert_eq!(number(to, wrap(to, x as u64)), back);
            }
            for &y in &values {
                for kind in ADD..=DIVIDE {
                    let result = step(kind, ty, ty, x as u64, y as u64);
                    assert_eq!(result.map(|value| number(ty, value)), whole_step(kind, ty, x, y));
                    let (held, marked) = wrapping(kind, ty, x as u64, y as u64);
                    assert_eq!(marked, result.is_err());
                    // u64 products past an i128 are left out here.
                    if kind != MULTIPLY || x.checked_mul(y).is_some() {
                        let result = whole(kind, x, y).unwrap_or(0);
                        assert_eq!(number(ty, held), wrapped(result), "{kind} {ty} {x} {y}");
                    }
                }
            }
        }
    }
}

/// An expression with its atoms.
#[derive(Clone, PartialEq, Eq, PartialOrd, Ord)]
enum Tree {
    Constant(u8, u32),
    Variable(u16),
    Reading(u16, u32),
    Loaded(usize, u32),
    Step(u8, u8, Box<Tree>, Box<Tree>),
    Convert(u8, Box<Tree>),
}

impl Tree {
    fn nodes(&self) -> usize {
        match self {
            Tree::Step(_, _, left, right) => 1 + left.nodes() + right.nodes(),
            Tree::Convert(_, of) => 1 + of.nodes(),
            _ => 1,
        }
    }

    /// Every atom replaced, from left to right.
    fn replace(&self, f: &mut dyn FnMut(&Tree) -> Tree) -> Tree {
        match self {
            Tree::Step(kind, ty, left, right) => {
                let left = left.replace(f);
                Tree::Step(*kind, *ty, Box::new(left), Box::new(right.replace(f)))
            }
            Tree::Convert(ty, of) => Tree::Convert(*ty, Box::new(of.replace(f))),
            atom => f(atom),
        }
    }

    fn renumbered(&self) -> Tree {
        let mut fields: BTreeMap<u16, Vec<u32>> = BTreeMap::new();
        let mut labels: BTreeMap<usize, Vec<u32>> = BTreeMap::new();
        let place = |met: &mut Vec<u32>, n: u32| {
            if !met.contains(&n) {
                met.push(n);
            }
            met.iter().position(|&m| m == n).unwrap() as u32 + 1
        };
        self.replace(&mut |atom| match *atom {
            Tree::Reading(f, n) => Tree::Reading(f, place(fields.entry(f).or_default(), n)),
            Tree::Loaded(l, n) => Tree::Loaded(l, place(labels.entry(l).or_default(), n)),
            ref other => other.clone(),
        })
    }

    fn text(&self, recipe: &recipe::Recipe) -> String {
        let name = |ty: u8| TYPES[ty as usize].name;
        match self {
            Tree::Constant(ty, n) if *ty < 4 => format!("{n}:{}", name(*ty)),
            Tree::Constant(ty, n) => format!("{}:{}", *n as i32, name(*ty)),
            Tree::Reading(f, n) => format!("f{f}<{n}>:{}", name(recipe.fields[*f as usize].ty)),
            Tree::Step(kind, ty, left, right) => {
                let word = ["add", "sub", "mul", "div"][*kind as usize - 2];
                format!("{} {} {word}:{}", left.text(recipe), right.text(recipe), name(*ty))
            }
            Tree::Convert(ty, of) => format!("{} to:{}", of.text(recipe), name(*ty)),
            _ => panic!("left over"),
        }
    }
}

type Trees = BTreeSet<Tree>;

/// Statements as a tree of blocks.
enum Part {
    Plain(usize),
    If(Vec<Part>, Vec<Part>),
    While(Vec<Part>),
}

fn parts(recipe: &recipe::Recipe, at: &mut usize) -> Vec<Part> {
    let mut list = Vec::new();
    while let Some(s) = recipe.written.code.statements.get(*at) {
        let label = *at;
        *at += 1;
        match s.kind {
            IF => {
                let yes = parts(recipe, at);
                list.push(Part::If(yes, parts(recipe, at)));
            }
            WHILE => list.push(Part::While(parts(recipe, at))),
            ELSE | END => break,
            _ => list.push(Part::Plain(label)),
        }
    }
    list
}

fn has(parts: &[Part], label: usize) -> bool {
    parts.iter().any(|part| match part {
        Part::Plain(l) => *l == label,
        Part::If(yes, no) => has(yes, label) || has(no, label),
        Part::While(body) => has(body, label),
    })
}

/// What is done after every rule: renumber, merge, then the limits.
fn rule(trees: impl IntoIterator<Item = Tree>) -> Result<Trees, u8> {
    let set: Trees = trees.into_iter().map(|tree| tree.renumbered()).collect();
    if set.iter().any(|tree| tree.nodes() > 120) {
        return Err(9);
    }
    if set.len() > 64 {
        Err(10)
    } else {
        Ok(set)
    }
}

fn walk(recipe: &recipe::Recipe, list: &[Part], mut set: Trees) -> Result<Trees, u8> {
    for part in list.iter().rev() {
        set = match part {
            Part::Plain(label) => plain(recipe, *label, &set)?,
            Part::If(yes, no) => {
                let one = walk(recipe, yes, set.clone())?;
                let other = walk(recipe, no, set)?;
                rule(one.into_iter().chain(other))?
            }
            Part::While(body) => rounds(recipe, body, &set)?,
        };
    }
    Ok(set)
}

fn rounds(recipe: &recipe::Recipe, body: &[Part], first: &Trees) -> Result<Trees, u8> {
    let mut before = first.clone();
    for _ in 1..=16 {
        let walked = walk(recipe, body, before.clone())?;
        let now = rule(first.iter().cloned().chain(walked))?;
        if now == before {
            return Ok(now);
        }
        before = now;
    }
    Err(11)
}

fn plain(recipe: &recipe::Recipe, label: usize, set: &Trees) -> Result<Trees, u8> {
    let s = recipe.written.code.statements[label];
    let variable = |v: u16| Box::new(Tree::Variable(v));
    let own = |v: u16| recipe.written.variables[v as usize];
    let new = match s.kind {
        CONSTANT => Tree::Constant(own(s.a), s.immediate),
        COPY => Tree::Variable(s.b),
        ADD..=DIVIDE => Tree::Step(s.kind, own(s.a), variable(s.b), variable(s.c)),
        CONVERT => Tree::Convert(own(s.a), variable(s.b)),
        READ => Tree::Reading(s.b, 9_999),
        LOAD => Tree::Loaded(label, 9_999),
        STORE => {
            let of_tray =
                |tree: &Tree| matches!(tree, Tree::Loaded(l, _) if recipe.written.code.statements[*l].b == s.a);
            let mut all = Vec::new();
            for tree in set {
                let mut atoms: Vec<Tree> = Vec::new();
                tree.replace(&mut |atom| {
                    if of_tray(atom) && !atoms.contains(atom) {
                        atoms.push(atom.clone());
                    }
                    atom.clone()
                });
                // More than enough to pass 64; a long enumeration would only take time.
                let counted = atoms.len().min(8);
                let long = recipe.trays[s.a as usize].length > 1;
                for subset in if long { 0..1 << counted } else { (1 << counted) - 1..1 << counted } {
                    all.push(tree.replace(&mut |atom| match atoms.iter().position(|a| a == atom) {
                        Some(place) if !long || (place < 8 && subset >> place & 1 == 1) => *variable(s.c),
                        _ => atom.clone(),
                    }));
                }
            }
            return rule(all);
        }
        _ => return Ok(set.clone()),
    };
    rule(set.iter().map(|tree| {
        tree.replace(&mut |atom| {
            if *atom == Tree::Variable(s.a) {
                new.clone()
            } else {
                atom.clone()
            }
        })
    }))
}

/// From a site inside a list of parts to the list's start.
fn from(recipe: &recipe::Recipe, list: &[Part], site: usize) -> Result<Trees, u8> {
    let place = list.iter().position(|part| has(std::slice::from_ref(part), site)).unwrap();
    let set = match &list[place] {
        Part::Plain(label) => rule([Tree::Variable(recipe.written.code.statements[*label].a)])?,
        Part::If(yes, no) => from(recipe, if has(yes, site) { yes } else { no }, site)?,
        Part::While(body) => {
            let first = from(recipe, body, site)?;
            rounds(recipe, body, &first)?
        }
    };
    walk(recipe, &list[..place], set)
}

/// The listing by the plain analysis, its conjuncts in any order.
fn plain_listing(bytes: &[u8]) -> Result<Vec<String>, u8> {
    let recipe = recipe::Recipe::read(bytes)?;
    let list = parts(&recipe, &mut 0);
    let mut all = Trees::new();
    for (label, _) in recipe.written.code.statements.iter().enumerate().filter(|(_, s)| s.kind == SITE) {
        let set = from(&recipe, &list, label)?;
        let set = rule(set.iter().map(|tree| {
            tree.replace(&mut |atom| match *atom {
                Tree::Variable(v) => Tree::Constant(recipe.written.variables[v as usize], 0),
                Tree::Loaded(l, _) => Tree::Constant(recipe.trays[recipe.written.code.statements[l].b as usize].ty, 0),
                ref other => other.clone(),
            })
        }))?;
        all = rule(all.into_iter().chain(set))?;
    }
    Ok(all.iter().map(|tree| tree.text(&recipe)).collect())
}

#[test]
fn analysis() {
    for case in 0..6_000 {
        let rng = &mut Rng::new(5_000_000 + case);
        let mut recipe = if rng.chance(33) { calls::recipe(rng) } else { generate::recipe(rng) };
        if rng.chance(10) {
            generate::damage(rng, &mut recipe);
        }
        // Longer ones would take too long on trees.
        if recipe::Recipe::read(&recipe).is_ok_and(|recipe| recipe.written.code.statements.len() > 1_500) {
            continue;
        }
        let quick = listing(&recipe);
        match plain_listing(&recipe) {
            Err(number) => assert_eq!(quick, format!("refused {number}\n"), "case {case}"),
            Ok(mut expected) => {
                let mut lines: Vec<&str> = quick.lines().skip(1).map(|line| line.split_once(": ").unwrap().1).collect();
                lines.sort_unstable();
                expected.sort();
                assert_eq!(lines, expected, "case {case}");
            }
        }
    }
}

/// The readings of each field.
fn readings(fields: &[Field], sheet: &[u8]) -> Vec<Vec<i128>> {
    let number_at = |at: usize| u32::from_le_bytes(sheet[at..at + 4].try_into().unwrap()) as usize;
    let reading = |ty: u8, bytes: &[u8]| {
        let value = bytes.iter().rev().fold(0, |sum, &byte| sum << 8 | i128::from(byte));
        let (low, high) = range(ty);
        if value > high {
            value - (high - low + 1)
        } else {
            value
        }
    };
    let of_field = |(f, &Field { ty, .. }): (usize, &Field)| {
        let part = &sheet[number_at(8 * f)..number_at(8 * f) + number_at(8 * f + 4)];
        part.chunks_exact([1, 2, 4, 8][ty as usize % 4]).map(|bytes| reading(ty, bytes)).collect()
    };
    fields.iter().enumerate().map(of_field).collect()
}

/// Whether two's complement of its field's bits holds a reading, or the bits themselves where the type is unsigned.
fn in_bits(field: Field, reading: i128) -> bool {
    let power = |exponent: u8| (0..exponent).fold(1, |power, _| 2 * power);
    if field.ty < 4 {
        0 <= reading && reading < power(field.bits)
    } else {
        -power(field.bits - 1) <= reading && reading < power(field.bits - 1)
    }
}

/// The different atoms of a conjunct by first appearance, and the number of readings of each.
type Atoms = Vec<(u64, usize)>;

fn atoms(conjunct: &[u64], readings: &[Vec<i128>]) -> Atoms {
    let mut atoms = Atoms::new();
    for &n in conjunct.iter().filter(|&&n| kind(n) == 1) {
        if atoms.iter().all(|&(atom, _)| atom != n) {
            atoms.push((n, readings[field(n)].len()));
        }
    }
    atoms
}

/// The order in which failures are looked for: the right one, and wrong ones.
#[derive(Clone, Copy, Debug, PartialEq, Eq)]
enum Order {
    Right,
    RightOperandsFirst,
    FirstAtomFastest,
    ReadingsBackward,
    ConjunctsBackward,
}

const WRONG_ORDERS: [Order; 4] =
    [Order::RightOperandsFirst, Order::FirstAtomFastest, Order::ReadingsBackward, Order::ConjunctsBackward];

/// The value of a node without operands, the atoms taking the values chosen.
fn leaf(n: u64, chosen: &BTreeMap<u64, i128>) -> Option<i128> {
    match kind(n) {
        0 if ty(n) < 4 => Some(i128::from(rest(n))),
        0 => Some(i128::from(rest(n) as i32)),
        1 => Some(chosen[&n]),
        _ => None,
    }
}

/// Works the steps in postfix order.
fn forward(conjunct: &[u64], chosen: &BTreeMap<u64, i128>) -> Result<(), Cause> {
    let mut stack: Vec<i128> = Vec::new();
    for &n in conjunct {
        let value = if let Some(value) = leaf(n, chosen) {
            value
        } else {
            let right = stack.pop().unwrap();
            let left = if kind(n) == CONVERT { right } else { stack.pop().unwrap() };
            whole_step(kind(n), ty(n), left, right)?
        };
        stack.push(value);
    }
    Ok(())
}

/// Works the last node's step, its right operand before its left one; wrong where both overflow.
fn right_first(nodes: &mut dyn Iterator<Item = &u64>, chosen: &BTreeMap<u64, i128>) -> Result<i128, Cause> {
    let &n = nodes.next().unwrap();
    if let Some(value) = leaf(n, chosen) {
        return Ok(value);
    }
    let right = right_first(nodes, chosen)?;
    let left = if kind(n) == CONVERT { right } else { right_first(nodes, chosen)? };
    whole_step(kind(n), ty(n), left, right)
}

/// The first failure of a conjunct: its combinations are counted through, and the last atom's reading is the last
/// digit of the number.
fn first_failure(conjunct: &[u64], atoms: &[(u64, usize)], readings: &[Vec<i128>], order: Order) -> Option<Cause> {
    let total: usize = atoms.iter().map(|&(_, count)| count).product();
    let mut fastest: Atoms = atoms.to_vec();
    if order != Order::FirstAtomFastest {
        fastest.reverse();
    }
    (0..total).find_map(|mut number| {
        let mut chosen: BTreeMap<u64, i128> = BTreeMap::new();
        for &(atom, count) in &fastest {
            let place = if order == Order::ReadingsBackward { count - 1 - number % count } else { number % count };
            chosen.insert(atom, readings[field(atom)][place]);
            number /= count;
        }
        match order {
            Order::RightOperandsFirst => right_first(&mut conjunct.iter().rev(), &chosen).err(),
            _ => forward(conjunct, &chosen).err(),
        }
    })
}

/// The gate's answer by counting through all combinations, or nothing if these are many.
fn plain_gate(condition: &Condition, sheet: &[u8], order: Order) -> Option<Result<Verdict, u8>> {
    let readings = readings(&condition.fields, sheet);
    if condition.fields.iter().zip(&readings).any(|(&field, of_field)| !of_field.iter().all(|&z| in_bits(field, z))) {
        return Some(Err(13));
    }
    let mut conjuncts: Vec<(&[u64], Atoms)> =
        condition.conjuncts.iter().map(|conjunct| (&conjunct[..], atoms(conjunct, &readings))).collect();
    if order == Order::ConjunctsBackward {
        conjuncts.reverse();
    }
    if conjuncts.iter().any(|(_, atoms)| atoms.iter().any(|&(_, count)| count == 0)) {
        return Some(Err(15));
    }
    let total = |atoms: &[(u64, usize)]| atoms.iter().try_fold(1usize, |n, &(_, count)| n.checked_mul(count));
    if !conjuncts.iter().all(|(_, atoms)| total(atoms).is_some_and(|n| n <= 5_000)) {
        return None;
    }
    let cause = conjuncts.iter().find_map(|(nodes, atoms)| first_failure(nodes, atoms, &readings, order));
    Some(Ok(cause.map_or(Verdict::Pass, Verdict::Held)))
}

/// A condition, made up or derived, and a sheet, where there is one.
fn files(rng: &mut Rng) -> Option<(Vec<u8>, Vec<u8>)> {
    match rng.below(10) {
        0 => {
            let failures::Case { condition, sheet, .. } = failures::case(rng);
            Some((condition, sheet))
        }
        place => {
            let recipe = generate::recipe(rng);
            let file = if place < 5 { Ok(generate::condition(rng)) } else { derive(&recipe) }.ok()?;
            let sheet = generate::sheet(rng, &Condition::read(&file).ok()?.fields);
            Some((file, sheet))
        }
    }
}

/// Beside the answers it is counted how often a wrong order would give another one.
#[test]
fn gate() {
    let mut tally: BTreeMap<String, usize> = BTreeMap::new();
    let mut count = |what: String| *tally.entry(what).or_default() += 1;
    for case in 0..16_000 {
        let Some((file, sheet)) = files(&mut Rng::new(9_000_000 + case)) else { continue };
        let condition = Condition::read(&file).unwrap();
        let Some(answer) = plain_gate(&condition, &sheet, Order::Right) else { continue };
        assert_eq!(check(&file, &sheet), answer, "case {case}");
        count(format!("{answer:?}"));
        for order in WRONG_ORDERS {
            if plain_gate(&condition, &sheet, order) != Some(answer) {
                count(format!("{order:?} differs"));
            }
        }
    }
    println!("{tally:?}");
    let answers = ["Ok(Pass)", "Ok(Held(Above))", "Ok(Held(Below))", "Ok(Held(NoDivisor))", "Err(13)", "Err(15)"];
    let differs = WRONG_ORDERS.map(|order| format!("{order:?} differs"));
    for what in answers.into_iter().chain(differs.iter().map(String::as_str)) {
        assert!(tally.get(what).is_some_and(|&times| times > 50), "{what} is rare");
    }
}
