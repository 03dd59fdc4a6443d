//! The proved gate against integer overflow, for Rust.
//!
//! Each call goes to the function of `include/gate.h` with the same name, which is proved to equal its
//! definition in document 01, with document 02's Cards 1 to 5, for every input. [`Gate`] has memory of its own;
//! [`derive()`], [`check`], [`run`], [`guarded`] and [`convert`] work on slices that the caller lends, and a refusal
//! leaves each of them but `scratch` as it was. What is in `scratch` before and after a call does not matter.
//!
//! ```
//! use gate::{check, Cause, Choices, Gate, Refusal, Verdict};
//!
//! # fn main() -> Result<(), Refusal> {
//! // field f u8; var x u8; x = read f; x = x + x; site x
//! let recipe = [
//!     32, 0, 0, 0, 2, 0, 0, 0, 34, 0, 0, 0, 1, 0, 0, 0, 35, 0, 0, 0, 0, 0, 0, 0, 35, 0, 0, 0, 24, 0, 0, 0,
//!     0, 136, 0, 7, 0, 0, 0, 0, 0, 0, 0, 2, 0, 0, 0, 0, 0, 0, 0, 10, 0, 0, 0, 0, 0, 0, 0,
//! ];
//! let passes = [8, 0, 0, 0, 2, 0, 0, 0, 100, 127];
//! let held = [8, 0, 0, 0, 1, 0, 0, 0, 128];
//! let blank = [8, 0, 0, 0, 0, 0, 0, 0];
//!
//! let mut gate = Gate::new();
//! let condition = gate.derive(&recipe)?;
//! assert_eq!(check(&condition, &passes)?, Verdict::Pass);
//! assert_eq!(check(&condition, &held)?, Verdict::Held(Cause::TooBig));
//! assert_eq!(check(&condition, &blank), Err(Refusal::Blank));
//!
//! let run = gate.guarded(&recipe, &passes, 100, &Choices::from([1]), 10)?.expect("it passes");
//! assert_eq!((run.steps, run.records[0].label, run.records[0].value), (3, 2, 254));
//!
//! // The same as it was before fields had bits.
//! let old = [
//!     32, 0, 0, 0, 1, 0, 0, 0, 33, 0, 0, 0, 1, 0, 0, 0, 34, 0, 0, 0, 0, 0, 0, 0, 34, 0, 0, 0, 24, 0, 0, 0,
//!     0, 0, 7, 0, 0, 0, 0, 0, 0, 0, 2, 0, 0, 0, 0, 0, 0, 0, 10, 0, 0, 0, 0, 0, 0, 0,
//! ];
//! assert_eq!(gate.convert(&old)?, recipe);
//!
//! let refusal = gate.derive(&recipe[1..]).unwrap_err();
//! assert_eq!(refusal, Refusal::RecipeTable);
//! assert_eq!(refusal.to_string(), "refused 2: the recipe's length or section table is wrong");
//! # Ok(())
//! # }
//! ```

mod lent;
pub mod library;
mod owned;
mod record;
mod refusal;
mod verdict;

pub use lent::{check, convert, derive, guarded, run, scratch, scratch_words, End, Guarded, Ran, CONDITION, RECIPE};
pub use owned::{Gate, Run};
pub use record::{records, Choices, Record, RECORD};
pub use refusal::Refusal;
pub use verdict::{Cause, Verdict};
