//! Made-up recipes with procedures, the same for the same seed.
//!
//! Each procedure's body is made like a recipe over variables of its own, and may call those before it; so are the
//! statements outside. Then every part gets its place among the variables, in any order. Others have a whole recipe as
//! their procedure's body, nested loops among them, or are close to a limit of the written-out form.

use crate::blocks::DEEPEST;
use crate::build::{self, call, constant, procedure, s};
use crate::fields::ENTRY;
use crate::generate::{self, Callable, Maker, Rng, Tables, ZERO};
use crate::loops::{loops, Size};
use crate::procedures::MOST_WRITTEN;
use crate::recipe::{MOST_STATEMENTS, MOST_VARIABLES};
use crate::statements::Statement;
use crate::types::{ADD, CALL, COPY, ELSE, END, IF, READ, SITE, STORE, SUBTRACT, WHILE};

const U32: u8 = 2;

/// A recipe with procedures, biased to be accepted; some fields are narrow.
pub fn recipe(rng: &mut Rng) -> Vec<u8> {
    let whole = match rng.below(100) {
        0..=69 => structured(rng),
        70..=94 => wrapped(rng),
        _ => at_a_limit(rng),
    };
    generate::narrowed(rng, &whole)
}

// ---- bodies that are made like recipes

/// A procedure's body, or the statements outside: the types of its variables in their order, the place in it of each
/// variable that its statements name, how many are parameters, and the statements.
struct Part {
    types: Vec<u8>,
    places: Vec<usize>,
    parameters: usize,
    code: Vec<[u8; 8]>,
}

fn structured(rng: &mut Rng) -> Vec<u8> {
    let palette: Vec<u8> = (0..rng.between(1, 2)).map(|_| rng.pick(&[0, 1, 2, 2, 2, 3, 5, 6, 7])).collect();
    let fields: Vec<u8> = (0..rng.between(1, 3)).map(|_| rng.pick(&palette)).collect();
    let trays = (0..rng.pick(&[0, 0, 1, 2])).map(|_| (rng.pick(&palette), rng.pick(&[1, 1, 2, 3, 256]))).collect();
    let tables = Tables { fields, trays };
    let (mut parts, mut callable): (Vec<Part>, Vec<Callable>) = (Vec::new(), Vec::new());
    for _ in 0..rng.between(1, 4) {
        let (part, called) =
            if rng.chance(25) { small(rng, &palette) } else { made(rng, &palette, &tables, &callable) };
        parts.push(part);
        callable.push(called);
    }
    parts.push(outside(rng, &palette, &tables, &callable));
    laid_out(rng, &tables, &parts)
}

/// A procedure whose own variables are its parameters, the last of them its result.
fn small(rng: &mut Rng, palette: &[u8]) -> (Part, Callable) {
    let parameters = rng.between(1, 4);
    let types: Vec<u8> = (0..parameters).map(|_| rng.pick(palette)).collect();
    let result = types[parameters - 1];
    let same: Vec<u8> = (0..parameters as u8).filter(|&v| types[v as usize] == result).collect();
    let mut code = Vec::new();
    for _ in 0..rng.below(4) {
        let (b, c) = (rng.pick(&same), rng.pick(&same));
        code.push(match rng.below(6) {
            0 => s(SITE, b, 0, 0),
            1 => s(COPY, parameters as u8 - 1, b, 0),
            _ => s(rng.pick(&[ADD, SUBTRACT]), parameters as u8 - 1, b, c),
        });
    }
    let called = Callable { parameters: types.clone(), result, guess: ZERO, depth: 0 };
    (Part { types, places: (0..parameters).collect(), parameters, code }, called)
}

/// A procedure with parameters, others, a result, and variables for counters and indices.
fn made(rng: &mut Rng, palette: &[u8], tables: &Tables, callable: &[Callable]) -> (Part, Callable) {
    let parameters = rng.pick(&[0, 1, 1, 2, 2, 3, 4]);
    let ordinary = parameters + rng.between(1, 3);
    let mut variables: Vec<u8> = (0..ordinary).map(|_| rng.pick(palette)).collect();
    variables.extend([rng.pick(&[0, 1, 2, 6]), rng.pick(&[0, 1, 2, 6]), rng.below(4) as u8]);
    let result = ordinary - 1;
    let size = rng.pick(&[0, 1, 2, 3, 5, 8, 12]);
    let mut maker = Maker::new(rng, tables.clone(), variables, ordinary, callable);
    maker.body(size, 0, false);
    // Mostly the result is what was set last.
    let types = maker.variables.clone();
    let set = maker.statements.iter().rev().find(|s| s[0] < STORE && types[s[1] as usize] == types[result]);
    if let Some(&[_, last, ..]) = set {
        maker.push(COPY, result, last as usize, 0, 0);
    }
    let (code, guess) = (maker.statements, maker.values[result]);
    let depth = deepest(&code, callable);
    // The result goes behind the counters and the index.
    let mut places: Vec<usize> = (0..types.len()).collect();
    places[result..].rotate_left(1);
    let places: Vec<usize> = (0..types.len()).map(|v| places.iter().position(|&of| of == v).unwrap()).collect();
    let mut own = vec![0; types.len()];
    places.iter().zip(&types).for_each(|(&place, &ty)| own[place] = ty);
    let called = Callable { parameters: own[..parameters].to_vec(), result: types[result], guess, depth };
    (Part { types: own, places, parameters, code }, called)
}

/// The statements outside procedures.
fn outside(rng: &mut Rng, palette: &[u8], tables: &Tables, callable: &[Callable]) -> Part {
    let ordinary = rng.between(2, 9);
    let mut types: Vec<u8> = (0..ordinary).map(|_| rng.pick(palette)).collect();
    types.extend([rng.pick(&[0, 1, 2, 4, 6]), rng.pick(&[0, 1, 2, 4, 6]), rng.below(4) as u8]);
    let size = rng.pick(&[2, 4, 8, 12, 16, 20, 30]);
    let mut maker = Maker::new(rng, tables.clone(), types.clone(), ordinary, callable);
    maker.whole(size);
    Part { places: (0..types.len()).collect(), types, parameters: 0, code: maker.statements }
}

/// How deep statements nest, with each call written out.
fn deepest(code: &[[u8; 8]], callable: &[Callable]) -> usize {
    let (mut depth, mut deepest) = (0, 0);
    for s in code {
        match s[0] {
            IF | WHILE => depth += 1,
            END => depth -= 1,
            _ => {}
        }
        let called = if s[0] == CALL { callable[s[2] as usize].depth } else { 0 };
        deepest = deepest.max(depth + called);
    }
    deepest
}

/// The recipe of procedures and, last, the statements outside, whose variables get their places in any order.
fn laid_out(rng: &mut Rng, tables: &Tables, parts: &[Part]) -> Vec<u8> {
    let mut order: Vec<usize> = (0..parts.len()).collect();
    if rng.chance(60) {
        (1..order.len()).for_each(|i| order.swap(i, rng.below(i + 1)));
    }
    let mut first = vec![0; parts.len()];
    let mut variables = Vec::new();
    for part in order {
        first[part] = variables.len();
        variables.extend(&parts[part].types);
    }
    let mut code = Vec::new();
    for (number, part) in parts.iter().enumerate() {
        let name = |variable: u16| (first[number] + part.places[variable as usize]) as u16;
        let body = part.code.iter().map(|&s| renamed(s, parts, name));
        if number + 1 < parts.len() {
            code.push(procedure(part.parameters as u8, first[number] as u8, part.types.len() as u8));
            code.extend(body);
            code.push(s(END, 0, 0, 0));
        } else {
            code.extend(body);
        }
    }
    assert!(variables.len() <= MOST_VARIABLES);
    code.truncate(MOST_STATEMENTS);
    generate::write(&tables.fields, &variables, &tables.trays, &code)
}

/// A statement with other variables.
fn renamed(s: [u8; 8], parts: &[Part], name: impl Fn(u16) -> u16) -> [u8; 8] {
    if s[0] != CALL {
        return Statement::of_bytes(&s).renamed(name).to_bytes();
    }
    let given: Vec<u8> = s[4..4 + parts[s[2] as usize].parameters].iter().map(|&v| name(v.into()) as u8).collect();
    call(name(s[1].into()) as u8, s[2], &given)
}

// ---- a whole recipe as a procedure's body

/// A recipe, at times of nested loops, as the body of a procedure that is called several times, at times in a loop.
/// The first variables are the procedure's own; those outside are its arguments and the target.
fn wrapped(rng: &mut Rng) -> Vec<u8> {
    let whole = if rng.chance(50) {
        let size = Size { depth: rng.between(1, 3), body: rng.between(2, 5), chain: rng.between(2, 9) };
        loops(rng, size)
    } else {
        generate::whole_recipe(rng)
    };
    let [fields, own, trays, body] = build::sections(&whole);
    let fields: Vec<u8> = fields.chunks_exact(ENTRY).map(|entry| entry[0]).collect();
    let parameters = rng.below(5).min(own.len());
    if own.len() + parameters + 1 > MOST_VARIABLES || body.len() / 8 + 20 > MOST_STATEMENTS {
        return whole;
    }
    let outside = [&own[..parameters], &own[own.len() - 1..]].concat();
    let mut code = vec![procedure(parameters as u8, 0, own.len() as u8)];
    code.extend(body.as_chunks::<8>().0);
    code.push(s(END, 0, 0, 0));
    for (place, ty) in outside.iter().enumerate() {
        let variable = (own.len() + place) as u8;
        code.push(match fields.iter().position(|field| field == ty) {
            Some(field) => s(READ, variable, field as u8, 0),
            None => constant(variable, 3),
        });
    }
    code.extend(some_calls(rng, own.len() as u8, parameters as u8));
    build::recipe(&fields, &[own, outside].concat(), trays.as_chunks::<4>().0, &code)
}

/// Calls of procedure 0, at times in a while, and a site. The arguments are the variables from `first` on, and the
/// target is the one after them.
fn some_calls(rng: &mut Rng, first: u8, parameters: u8) -> Vec<[u8; 8]> {
    let target = first + parameters;
    let arguments: Vec<u8> = (first..target).collect();
    let mut code = vec![call(target, 0, &arguments); rng.between(1, 3)];
    if rng.chance(25) {
        code.insert(0, s(WHILE, target, 0, 0));
        code.push(s(END, 0, 0, 0));
    }
    code.push(s(SITE, target, 0, 0));
    code
}

// ---- limits of the written-out form

/// A recipe close to a limit of the written-out form, on either side of it.
fn at_a_limit(rng: &mut Rng) -> Vec<u8> {
    match rng.below(3) {
        0 => long(rng),
        1 => deep(rng),
        _ => doubling(rng),
    }
}

/// Many calls of one procedure, and as many statements as make 16,384 or near it. Variable 0 is the target, 1 the
/// argument; the procedure's own begin at 2.
fn long(rng: &mut Rng) -> Vec<u8> {
    let own = rng.between(2, 8) as u8;
    let (first, result) = (2, own + 1);
    let mut body = vec![s(ADD, result, first, first), s(READ, first, 0, 0)];
    if rng.chance(30) {
        body.push(s(SITE, result, 0, 0));
    }
    if rng.chance(50) {
        body.extend([s(WHILE, result, 0, 0), s(READ, result, 0, 0), s(END, 0, 0, 0)]);
    }
    let size = rng.between(20, 300);
    while body.len() < size {
        body.push(rng.pick(&[constant(first, 1), s(COPY, result, first, 0), s(READ, first, 0, 0)]));
    }
    let rows = own as usize + body.len() + 1;
    let aim = MOST_WRITTEN - 1 + rng.below(4);
    let calls = (aim - 1) / rows;
    let mut code = vec![procedure(1, first, own)];
    code.extend(body);
    code.push(s(END, 0, 0, 0));
    (0..calls).for_each(|_| code.push(call(0, 0, &[1])));
    (0..aim - 1 - calls * rows).for_each(|_| code.push(constant(1, 5)));
    code.push(s(SITE, 0, 0, 0));
    build::recipe(&[U32], &vec![U32; own as usize + 2], &[], &code)
}

/// Whiles in two procedures and around a call, 3 to 5 deep in all. Variable 0 is outside, 1 and 2 are own.
fn deep(rng: &mut Rng) -> Vec<u8> {
    let total = rng.between(DEEPEST - 1, DEEPEST + 1);
    let inner = rng.below(total.min(DEEPEST) + 1);
    let middle = rng.below((total - inner).min(DEEPEST) + 1);
    let outer = (total - inner - middle).min(DEEPEST);
    let whiles = |variable: u8, deep: usize, inside: &[[u8; 8]]| {
        [&vec![s(WHILE, variable, 0, 0); deep], inside, &vec![s(END, 0, 0, 0); deep]].concat()
    };
    let end = [s(END, 0, 0, 0)];
    let called = rng.chance(80);
    let last = if called { call(0, 1, &[0]) } else { s(READ, 0, 0, 0) };
    let code = [
        &[procedure(1, 1, 1)][..],
        &whiles(1, inner, &[s(READ, 1, 0, 0)]),
        &end,
        &[procedure(1, 2, 1)],
        &whiles(2, middle, &[call(2, 0, &[2])]),
        &end,
        &whiles(0, outer, &[last]),
        &[s(SITE, 0, 0, 0)],
    ];
    build::recipe(&[U32], &[U32; 3], &[], &code.concat())
}

/// Procedures that each call the one before twice, so that their lengths double; some number of them is called.
fn doubling(rng: &mut Rng) -> Vec<u8> {
    let last = rng.pick(&[3, 8, 11, 12, 13, 14, 40, 60]);
    let mut code = vec![procedure(1, 1, 1)];
    (0..rng.below(3)).for_each(|_| code.push(s(READ, 1, 0, 0)));
    code.push(s(END, 0, 0, 0));
    for number in 0..last {
        let own = number + 2;
        let twice = call(own, number, &[own]);
        code.extend([procedure(1, own, 1), twice, twice, s(END, 0, 0, 0)]);
    }
    if rng.chance(80) {
        code.push(call(0, last, &[0]));
    }
    (0..rng.below(4)).for_each(|_| code.push(constant(0, 1)));
    code.extend([s(IF, 0, 0, 0), call(0, 0, &[0]), s(ELSE, 0, 0, 0), s(END, 0, 0, 0), s(SITE, 0, 0, 0)]);
    build::recipe(&[U32], &[U32; MOST_VARIABLES], &[], &code)
}
