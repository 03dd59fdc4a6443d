//! The survey gate of document 01 and of document 02's Cards 1 to 5: recipe,
//! condition, sheet, gate and run, and the conversion of old recipes.
//!
//! An independent implementation, written from the documents for differential
//! tests and benchmarks. A refusal is the number of its cause in document 01's
//! table, which takes Card 1's 15 and Card 4's 16. Cause 1 speaks of lent
//! lengths and cannot arise here, since the library owns its outputs and
//! scratch.

#![allow(
    clippy::cast_possible_truncation,
    clippy::cast_possible_wrap,
    clippy::cast_sign_loss,
    reason = "values wrap to their types, and file numbers are narrowed where the documents bound them"
)]
#![allow(clippy::missing_errors_doc, reason = "every error is a refusal's number, as said above")]

pub mod analysis;
pub mod batched;
pub mod bigint;
pub mod blocks;
pub mod build;
pub mod calls;
pub mod columns;
pub mod combinations;
pub mod condition;
pub mod convert;
pub mod failures;
pub mod fields;
pub mod gate;
pub mod generate;
pub mod loops;
pub mod misuses;
pub mod nests;
pub mod procedures;
pub mod recipe;
pub mod run;
pub mod sheet;
pub mod statements;
pub mod types;
pub mod vectors;
pub mod whole;

pub use bigint::BigInt;
pub use convert::convert;
pub use gate::Verdict;
pub use run::{run, Ran};
pub use types::Cause;
pub use whole::{whole_bits, whole_run, Noted};

/// The condition file of a recipe, or the refusal 2 to 11 or 16.
pub fn derive(recipe: &[u8]) -> Result<Vec<u8>, u8> {
    let recipe = recipe::Recipe::read(recipe)?;
    let conjuncts = analysis::conjuncts(&recipe)?;
    Ok(condition::write(&recipe.fields, &conjuncts))
}

/// The same by way of the analysis's shortcuts, for recipes that take too long word by word.
pub fn derive_quickly(recipe: &[u8]) -> Result<Vec<u8>, u8> {
    let recipe = recipe::Recipe::read(recipe)?;
    let conjuncts = analysis::quickly(&recipe)?;
    Ok(condition::write(&recipe.fields, &conjuncts))
}

/// The gate: pass, held with the cause of the first failure, or a refusal: 12, 13, 15
/// and 14 are tested in this order.
pub fn check(condition: &[u8], sheet: &[u8]) -> Result<Verdict, u8> {
    gate::check(condition, sheet, |conjunct, sheet| gate::Plan::new(conjunct, sheet).first_failure())
}

/// What the listing program prints for a recipe.
#[must_use]
pub fn listing(recipe: &[u8]) -> String {
    let conjuncts = recipe::Recipe::read(recipe).and_then(|r| analysis::conjuncts(&r));
    match conjuncts {
        Ok(conjuncts) => condition::listing(&conjuncts),
        Err(number) => format!("refused {number}\n"),
    }
}
