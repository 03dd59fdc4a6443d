//! The refusals, by name, number and meaning.

use std::error::Error;
use std::fmt;

/// Why a file or a call is refused; docs/REFUSALS.md says how to mend each.
#[derive(Clone, Copy, Debug, PartialEq, Eq, Hash, PartialOrd, Ord)]
#[repr(u8)]
pub enum Refusal {
    /// 1: too little room was lent.
    Room = 1,
    /// 2: the recipe's length or section table is wrong.
    RecipeTable,
    /// 3: a section has too many entries.
    Entries,
    /// 4: a type code, a field's bits, a tray's length or its zero byte is wrong.
    Declaration,
    /// 5: a statement's kind, operand or unused byte is wrong.
    Statement,
    /// 6: types disagree.
    Types,
    /// 7: a number does not fit its type.
    Number,
    /// 8: blocks are unmatched or too deep.
    Blocks,
    /// 9: an expression on its way to a site has over 120 nodes.
    Nodes,
    /// 10: there are over 64 expressions.
    Conjuncts,
    /// 11: a loop makes a value from its own earlier value.
    Loop,
    /// 12: the condition is damaged, or is no condition.
    Condition,
    /// 13: the sheet is damaged, has a reading beyond its bits, or belongs to another recipe.
    Sheet,
    /// 14: a conjunct has over 1,048,576 combinations of readings.
    Combinations,
    /// 15: a field that a conjunct reads has no readings.
    Blank,
    /// 16: a procedure is wrong, or the calls written out are too long or too deep.
    Procedures,
}

impl Refusal {
    /// Every refusal, by number.
    pub const ALL: [Refusal; 16] = [
        Refusal::Room,
        Refusal::RecipeTable,
        Refusal::Entries,
        Refusal::Declaration,
        Refusal::Statement,
        Refusal::Types,
        Refusal::Number,
        Refusal::Blocks,
        Refusal::Nodes,
        Refusal::Conjuncts,
        Refusal::Loop,
        Refusal::Condition,
        Refusal::Sheet,
        Refusal::Combinations,
        Refusal::Blank,
        Refusal::Procedures,
    ];

    /// Its number, 1 to 16.
    #[must_use]
    pub fn number(self) -> u8 {
        self as u8
    }

    /// The refusal with a number.
    #[must_use]
    pub fn numbered(number: u64) -> Option<Refusal> {
        Refusal::ALL.into_iter().find(|refusal| u64::from(refusal.number()) == number)
    }

    /// What it means, in a few words.
    #[must_use]
    pub fn meaning(self) -> &'static str {
        match self {
            Refusal::Room => "too little room was lent",
            Refusal::RecipeTable => "the recipe's length or section table is wrong",
            Refusal::Entries => "a section has too many entries",
            Refusal::Declaration => "a type code, a field's bits, a tray's length or its zero byte is wrong",
            Refusal::Statement => "a statement's kind, operand or unused byte is wrong",
            Refusal::Types => "types disagree",
            Refusal::Number => "a number does not fit its type",
            Refusal::Blocks => "blocks are unmatched or too deep",
            Refusal::Nodes => "an expression on its way to a site has over 120 nodes",
            Refusal::Conjuncts => "there are over 64 expressions",
            Refusal::Loop => "a loop makes a value from its own earlier value",
            Refusal::Condition => "the condition is damaged, or is no condition",
            Refusal::Sheet => "the sheet is damaged, has a reading beyond its bits, or belongs to another recipe",
            Refusal::Combinations => "a conjunct has over 1,048,576 combinations of readings",
            Refusal::Blank => "a field that a conjunct reads has no readings",
            Refusal::Procedures => "a procedure is wrong, or the calls written out are too long or too deep",
        }
    }
}

impl fmt::Display for Refusal {
    fn fmt(&self, out: &mut fmt::Formatter<'_>) -> fmt::Result {
        write!(out, "refused {}: {}", self.number(), self.meaning())
    }
}

impl Error for Refusal {}
