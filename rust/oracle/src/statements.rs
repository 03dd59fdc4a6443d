//! One statement: checks 5 to 7, and the variables that it names.

use crate::recipe::{word, Recipe};
use crate::types::{
    immediate, is_signed, ADD, CALL, CONSTANT, CONVERT, COPY, DIVIDE, ELSE, END, IF, LOAD, PROCEDURE, READ, SITE,
    STORE, WHILE,
};

/// The most parameters of a procedure, for which a call's immediate has room.
pub const MOST_PARAMETERS: u16 = 4;

/// A statement. The operands are bytes in the file; where calls are written out there are more variables than a
/// byte can name.
#[derive(Clone, Copy, Debug, PartialEq, Eq)]
pub struct Statement {
    pub kind: u8,
    pub a: u16,
    pub b: u16,
    pub c: u16,
    pub immediate: u32,
}

impl Statement {
    /// A statement of the file.
    #[must_use]
    pub fn of_bytes(s: &[u8]) -> Statement {
        Statement { kind: s[0], a: s[1].into(), b: s[2].into(), c: s[3].into(), immediate: word(s, 4) }
    }

    /// The bytes of a statement of the file.
    #[must_use]
    pub fn to_bytes(self) -> [u8; 8] {
        let [e, f, g, h] = self.immediate.to_le_bytes();
        [self.kind, self.a as u8, self.b as u8, self.c as u8, e, f, g, h]
    }

    /// The immediate's bytes, which are a call's arguments as far as its procedure has parameters.
    #[must_use]
    pub fn arguments(self) -> [u8; 4] {
        self.immediate.to_le_bytes()
    }

    /// Which of a, b and c are variables.
    fn variables(self) -> [bool; 3] {
        match self.kind {
            CONSTANT | READ | SITE | IF | WHILE | CALL => [true, false, false],
            COPY | CONVERT => [true, true, false],
            ADD..=DIVIDE => [true, true, true],
            LOAD => [true, false, true],
            STORE => [false, true, true],
            _ => [false, false, false],
        }
    }

    /// The same with every variable so much higher, of kinds 0 to 14.
    #[must_use]
    pub fn raised(self, by: u16) -> Statement {
        self.renamed(|variable| variable + by)
    }

    /// The same with other variables, of kinds 0 to 14.
    #[must_use]
    pub fn renamed(self, name: impl Fn(u16) -> u16) -> Statement {
        let [a, b, c] = self.variables();
        let new = |is: bool, operand: u16| if is { name(operand) } else { operand };
        Statement { a: new(a, self.a), b: new(b, self.b), c: new(c, self.c), ..self }
    }
}

impl Recipe {
    /// The variables that a statement names. The own variables of a procedure are not named by its opening.
    pub fn named(&self, s: Statement) -> impl Iterator<Item = u16> {
        let given = if s.kind == CALL { self.procedures[s.b as usize].parameters } else { 0 };
        let operands = [s.a, s.b, s.c].into_iter().zip(s.variables());
        let operands = operands.filter_map(|(n, is)| is.then_some(n));
        operands.chain(s.arguments().map(u16::from).into_iter().take(given))
    }

    /// Check 5: the kind, what the operands name, and zero in the unused bytes.
    pub(crate) fn operands_right(&self, s: Statement) -> bool {
        let variable = |n: u16| (n as usize) < self.variables.len();
        let field = |n: u16| (n as usize) < self.fields.len();
        let tray = |n: u16| (n as usize) < self.trays.len();
        let zero = |n: u16| n == 0;
        let operands = match s.kind {
            CONSTANT | SITE | IF | WHILE => variable(s.a) && zero(s.b) && zero(s.c),
            COPY | CONVERT => variable(s.a) && variable(s.b) && zero(s.c),
            ADD..=DIVIDE => variable(s.a) && variable(s.b) && variable(s.c),
            READ => variable(s.a) && field(s.b) && zero(s.c),
            LOAD => variable(s.a) && tray(s.b) && variable(s.c),
            STORE => tray(s.a) && variable(s.b) && variable(s.c),
            ELSE | END => zero(s.a) && zero(s.b) && zero(s.c),
            PROCEDURE => s.a <= MOST_PARAMETERS && (s.b + s.c) as usize <= self.variables.len(),
            CALL => variable(s.a) && zero(s.c) && self.arguments_right(s),
            _ => false,
        };
        operands && (s.kind == CONSTANT || s.kind == CALL || s.immediate == 0)
    }

    /// Whether the procedure of a call is there, the arguments are variables, and the other bytes are zero.
    fn arguments_right(&self, s: Statement) -> bool {
        let Some(procedure) = self.procedures.get(s.b as usize) else { return false };
        // A wrong parameter count is found at the procedure's own opening.
        let (arguments, others) = (s.arguments(), procedure.parameters.min(4));
        arguments[..others].iter().all(|&n| (n as usize) < self.variables.len())
            && arguments[others..].iter().all(|&n| n == 0)
    }

    /// Check 6.
    pub(crate) fn types_agree(&self, s: Statement) -> bool {
        let variable = |n: u16| self.variables[n as usize];
        let tray = |n: u16| self.trays[n as usize].ty;
        match s.kind {
            COPY => variable(s.a) == variable(s.b),
            ADD..=DIVIDE => variable(s.a) == variable(s.b) && variable(s.a) == variable(s.c),
            READ => variable(s.a) == self.fields[s.b as usize].ty,
            LOAD => variable(s.a) == tray(s.b) && !is_signed(variable(s.c)),
            STORE => tray(s.a) == variable(s.c) && !is_signed(variable(s.b)),
            CALL => self.call_agrees(s),
            _ => true,
        }
    }

    /// Arguments have their parameters' types and the target the result's. A call to a procedure with no own
    /// variables or fewer than its parameters is passed over.
    fn call_agrees(&self, s: Statement) -> bool {
        let procedure = self.procedures[s.b as usize];
        if !procedure.has_enough() {
            return true;
        }
        let own = &self.variables[procedure.first..procedure.first + procedure.count];
        let arguments = s.arguments();
        let mut pairs = arguments[..procedure.parameters].iter().zip(own);
        pairs.all(|(&argument, &ty)| self.variables[argument as usize] == ty)
            && self.variables[s.a as usize] == own[own.len() - 1]
    }

    /// Check 7.
    pub(crate) fn immediate_fits(&self, s: Statement) -> bool {
        s.kind != CONSTANT || immediate(self.variables[s.a as usize], s.immediate).is_some()
    }
}
