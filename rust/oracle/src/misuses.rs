//! Damage to recipes with procedures: each cause of 16, and wrong operands and types of kinds 15 and 16. The rest is
//! left as it is, and where one variable takes another's place they are of one type, so that nothing else is wrong.

use crate::blocks::DEEPEST;
use crate::build::{call, constant, of_parts, s, sections};
use crate::generate::{self, Rng};
use crate::procedures::{Misuse, Procedure};
use crate::recipe::Recipe;
use crate::statements::Statement;
use crate::types::{CALL, END, IF, PROCEDURE, SITE, WHILE};

/// A recipe in its parts, with its procedures.
struct Parts {
    sections: [Vec<u8>; 4],
    code: Vec<[u8; 8]>,
    recipe: Recipe,
}

/// Damages a recipe with procedures: by one of the causes of 16, in an operand, or in any way; at times there is an end
/// too many as well. Gives the cause of 16 that the end too many hides, if it hides one.
pub fn damage(rng: &mut Rng, bytes: &mut Vec<u8>) -> Option<Misuse> {
    match rng.below(100) {
        0..=59 => {
            let cause = rng.pick(&Misuse::ALL);
            misuse(rng, bytes, cause);
        }
        60..=84 => wrong_operand(rng, bytes),
        _ => {
            generate::damage(rng, bytes);
            return None;
        }
    }
    let cause = Recipe::misuse(bytes);
    if !rng.chance(20) {
        return None;
    }
    unmatch(bytes);
    cause
}

/// Damages a recipe that is right so that it is refused with 16, mostly for the cause given. Nothing is done where
/// the recipe has no procedures, or has not what the cause needs.
fn misuse(rng: &mut Rng, bytes: &mut Vec<u8>, cause: Misuse) {
    let Some(mut parts) = Parts::of(bytes) else { return };
    match cause {
        Misuse::Late => parts.code.insert(0, constant(rng.below(parts.recipe.variables.len()) as u8, 1)),
        Misuse::Nested => parts.nest(rng),
        Misuse::TooFewVariables => parts.take_variables(rng),
        Misuse::SharedVariables => parts.share(rng),
        Misuse::ForeignVariable => parts.name_another(rng),
        Misuse::CallsItselfOrLater => parts.call_later(rng),
        Misuse::UsedOutside => parts.use_outside(rng),
        Misuse::TooLong => parts.lengthen(),
        Misuse::TooDeep => parts.deepen(rng),
    }
    parts.write(bytes);
}

/// Damages an operand or a type of a procedure's opening or of a call: 5 or 6, or 16 where 6 passes over it.
fn wrong_operand(rng: &mut Rng, bytes: &mut Vec<u8>) {
    let Some(mut parts) = Parts::of(bytes) else { return };
    let labels: Vec<usize> = (0..parts.code.len()).filter(|&label| parts.code[label][0] >= PROCEDURE).collect();
    let label = rng.pick(&labels);
    let variables = parts.recipe.variables.len();
    let place = rng.between(1, 7);
    let any = rng.below(variables);
    let value = rng.pick(&[0, 1, 4, 5, variables - 1, variables, any, any, 255]);
    parts.code[label][place] = value as u8;
    parts.write(bytes);
}

/// Adds an end that closes nothing.
fn unmatch(bytes: &mut Vec<u8>) {
    let [fields, variables, trays, statements] = sections(bytes);
    let statements = [statements, s(END, 0, 0, 0).to_vec()].concat();
    *bytes = of_parts(&[fields, variables, trays, statements]);
}

impl Parts {
    fn of(bytes: &[u8]) -> Option<Parts> {
        let recipe = Recipe::read(bytes).ok()?;
        let sections = sections(bytes);
        let code = sections[3].chunks_exact(8).map(|s| s.try_into().unwrap()).collect();
        (!recipe.procedures.is_empty()).then_some(Parts { sections, code, recipe })
    }

    fn write(self, bytes: &mut Vec<u8>) {
        let [fields, variables, trays, _] = self.sections;
        *bytes = of_parts(&[fields, variables, trays, self.code.concat()]);
    }

    /// Any procedure and its number.
    fn any(&self, rng: &mut Rng) -> (usize, Procedure) {
        let number = rng.below(self.recipe.procedures.len());
        (number, self.recipe.procedures[number])
    }

    /// Some variable of a type that a procedure does or does not own.
    fn variable(&self, rng: &mut Rng, ty: u8, right: impl Fn(usize) -> bool) -> Option<u8> {
        let types = &self.recipe.variables;
        let found: Vec<usize> = (0..types.len()).filter(|&v| types[v] == ty && right(v)).collect();
        (!found.is_empty()).then(|| rng.pick(&found) as u8)
    }

    /// Moves the end of a procedure behind the one after it.
    fn nest(&mut self, rng: &mut Rng) {
        let procedures = &self.recipe.procedures;
        if procedures.len() > 1 {
            let number = rng.below(procedures.len() - 1);
            let end = self.code.remove(procedures[number].end);
            self.code.insert(procedures[number + 1].end, end);
        }
    }

    /// Leaves a procedure no own variable, or one less than its parameters.
    fn take_variables(&mut self, rng: &mut Rng) {
        let (_, procedure) = self.any(rng);
        let fewer = if rng.chance(50) { 0 } else { procedure.parameters.saturating_sub(1) };
        self.code[procedure.open][3] = fewer as u8;
    }

    /// Lets a procedure begin at another's variable, or one sooner or later.
    fn share(&mut self, rng: &mut Rng) {
        let ((_, procedure), (_, other)) = (self.any(rng), self.any(rng));
        let first =
            rng.pick(&[other.first, other.first + other.count - 1, procedure.first + 1, procedure.first.max(1) - 1]);
        if first + procedure.count <= self.recipe.variables.len() {
            self.code[procedure.open][2] = first as u8;
        }
    }

    /// Lets a statement of a body name a variable that is not the procedure's own.
    fn name_another(&mut self, rng: &mut Rng) {
        let (_, procedure) = self.any(rng);
        if procedure.open + 1 == procedure.end {
            return;
        }
        let label = rng.between(procedure.open + 1, procedure.end - 1);
        let s = Statement::of_bytes(&self.code[label]);
        let named: Vec<u16> = self.recipe.named(s).collect();
        if named.is_empty() {
            return;
        }
        let old = rng.pick(&named);
        let own = procedure.first..procedure.first + procedure.count;
        let Some(new) = self.variable(rng, self.recipe.variables[old as usize], |v| !own.contains(&v)) else { return };
        let name = |variable: u16| if variable == old { new.into() } else { variable };
        self.code[label] = if s.kind == CALL {
            let given: Vec<u8> = named[1..].iter().map(|&variable| name(variable) as u8).collect();
            call(name(s.a) as u8, s.b as u8, &given)
        } else {
            s.renamed(name).to_bytes()
        };
    }

    /// Lets a procedure call itself, or one after it.
    fn call_later(&mut self, rng: &mut Rng) {
        let (number, procedure) = self.any(rng);
        let called = rng.between(number, self.recipe.procedures.len() - 1);
        let later = self.recipe.procedures[called];
        let own = procedure.first..procedure.first + procedure.count;
        let mut given = Vec::new();
        for parameter in later.first..later.first + later.parameters {
            let ty = self.recipe.variables[parameter];
            let Some(argument) = self.variable(rng, ty, |v| own.contains(&v)) else { return };
            given.push(argument);
        }
        let ty = self.recipe.variables[later.result()];
        let Some(target) = self.variable(rng, ty, |v| own.contains(&v)) else { return };
        self.code.insert(procedure.end, call(target, called as u8, &given));
    }

    /// Puts a site on an own variable behind the procedures, or lets a call there take one for its own.
    fn use_outside(&mut self, rng: &mut Rng) {
        let (_, procedure) = self.any(rng);
        let own = rng.between(procedure.first, procedure.result()) as u8;
        let label = rng.between(self.recipe.start, self.code.len());
        self.code.insert(label, s(SITE, own, 0, 0));
    }

    /// Repeats the calls outside procedures as often as a recipe has room.
    fn lengthen(&mut self) {
        let calls: Vec<[u8; 8]> = self.code[self.recipe.start..].iter().filter(|s| s[0] == CALL).copied().collect();
        while !calls.is_empty() && self.code.len() + calls.len() <= 1_024 {
            self.code.extend(&calls);
        }
    }

    /// Puts whiles around what stands outside procedures, as many as its own blocks leave room for.
    fn deepen(&mut self, rng: &mut Rng) {
        let owned = |v: usize| self.recipe.procedures.iter().any(|q| (q.first..q.first + q.count).contains(&v));
        let outside: Vec<usize> = (0..self.recipe.variables.len()).filter(|&v| !owned(v)).collect();
        let (procedures, main) = self.code.split_at(self.recipe.start);
        let depths = main.iter().scan(0, |depth, s| {
            *depth += usize::from(s[0] == IF || s[0] == WHILE);
            *depth -= usize::from(s[0] == END);
            Some(*depth)
        });
        let own = depths.max().unwrap_or(0);
        if !outside.is_empty() {
            let (test, deep) = (rng.pick(&outside) as u8, DEEPEST - own);
            self.code = [procedures, &vec![s(WHILE, test, 0, 0); deep], main, &vec![s(END, 0, 0, 0); deep]].concat();
        }
    }
}
