//! The calls over slices that the caller lends.

use crate::library;
use crate::{Cause, Choices, Refusal, Verdict};

/// The least length of a condition output: no condition file is longer.
pub const CONDITION: usize = 62_024;

/// The least length of a recipe output: no recipe is longer.
pub const RECIPE: usize = 8_416;

/// Why a run ended.
#[derive(Clone, Copy, Debug, PartialEq, Eq)]
pub enum End {
    /// The last statement was reached.
    Finished,
    /// A further step was due.
    StepLimit,
    /// A read was due of a field that has none.
    FieldWithoutReadings,
    /// A read was due, and no choice was left.
    ChoicesUsedUp,
    /// A site was due, and the log had no room for a record.
    LogFull,
}

/// A run: its end, the steps that it took and the number of records that it wrote.
#[derive(Clone, Copy, Debug, PartialEq, Eq)]
pub struct Ran {
    pub end: End,
    pub steps: u64,
    pub records: u64,
}

/// A run behind the gate: the sheet is held, for a cause that [`check`] tells, or it passed and was run.
#[derive(Clone, Copy, Debug, PartialEq, Eq)]
pub enum Guarded {
    Held,
    Ran(Ran),
}

/// The number by which `gate_guarded` says that the sheet is held.
const HELD: u64 = 5;

/// The refusal in the upper half of an answer, or the lower half.
fn answer(word: u64) -> Result<u64, Refusal> {
    match word >> 32 {
        0 => Ok(word),
        number => Err(Refusal::numbered(number).expect("the library refuses with 1 to 16")),
    }
}

/// The verdict of a check: 0, or 1 plus 256 times the cause.
fn verdict(number: u64) -> Verdict {
    match (number % 256, number / 256) {
        (0, 0) => Verdict::Pass,
        (1, cause) => Verdict::Held(Cause::numbered(cause).expect("the library holds for a cause from 1 to 3")),
        _ => unreachable!("the library's verdict is 0 or 1"),
    }
}

fn end(number: u64) -> End {
    match number {
        0 => End::Finished,
        1 => End::StepLimit,
        2 => End::FieldWithoutReadings,
        3 => End::ChoicesUsedUp,
        4 => End::LogFull,
        _ => unreachable!("the library ends a run with 0 to 4"),
    }
}

/// A number of the library's, of words or bytes in memory.
fn size(number: u64) -> usize {
    usize::try_from(number).expect("a size fits the machine")
}

/// The words of scratch that serve every call.
#[must_use]
pub fn scratch_words() -> usize {
    // SAFETY: it takes nothing and reads nothing.
    size(unsafe { library::gate_scratch() })
}

/// Scratch that serves every call.
#[must_use]
pub fn scratch() -> Vec<u64> {
    vec![0; scratch_words()]
}

/// Writes the recipe's condition to the start of `condition` and gives its length.
///
/// # Errors
/// [`Refusal::Room`] where `condition` has under [`CONDITION`] bytes or `scratch` under [`scratch_words`];
/// then the refusals 2 to 8, 16, and 9 to 11.
pub fn derive(recipe: &[u8], condition: &mut [u8], scratch: &mut [u64]) -> Result<usize, Refusal> {
    // SAFETY: each pointer goes with its slice's length, and the slices are lent for the call.
    let word = unsafe {
        library::gate_derive(
            recipe.as_ptr(),
            recipe.len(),
            condition.as_mut_ptr(),
            condition.len(),
            scratch.as_mut_ptr(),
            scratch.len(),
        )
    };
    answer(word).map(size)
}

/// Writes a recipe of the form before document 02's Card 5 to the start of `recipe` in today's form, its fields with
/// all bits of their types, and gives its length. What only [`derive()`] refuses, with 9 to 11, is converted.
///
/// # Errors
/// [`Refusal::Room`] where `recipe` has under [`RECIPE`] bytes or `scratch` under [`scratch_words`]; then the refusals
/// 2 to 8 and 16 of the old form.
pub fn convert(old: &[u8], recipe: &mut [u8], scratch: &mut [u64]) -> Result<usize, Refusal> {
    // SAFETY: as above.
    let word = unsafe {
        library::gate_convert(
            old.as_ptr(),
            old.len(),
            recipe.as_mut_ptr(),
            recipe.len(),
            scratch.as_mut_ptr(),
            scratch.len(),
        )
    };
    answer(word).map(size)
}

/// Whether the sheet passes under the condition, which must be the recipe's own, and why not.
///
/// # Errors
/// The refusals 12 to 15, tested in the order 12, 13, 15, 14.
pub fn check(condition: &[u8], sheet: &[u8]) -> Result<Verdict, Refusal> {
    // SAFETY: as above.
    let word = unsafe { library::gate_check(condition.as_ptr(), condition.len(), sheet.as_ptr(), sheet.len()) };
    answer(word).map(verdict)
}

/// Runs the recipe on the sheet for at most `limit` steps and writes its records to the start of `log`.
///
/// # Errors
/// [`Refusal::Room`] where `scratch` is shorter than [`scratch_words`]; then the refusals 2 to 8, 16 and
/// 13.
pub fn run(
    recipe: &[u8],
    sheet: &[u8],
    limit: u32,
    choices: &Choices,
    log: &mut [u8],
    scratch: &mut [u64],
) -> Result<Ran, Refusal> {
    let choices = choices.as_bytes();
    let (mut steps, mut records) = (0, 0);
    // SAFETY: as above; the two numbers are lent for the call.
    let word = unsafe {
        library::gate_run(
            recipe.as_ptr(),
            recipe.len(),
            sheet.as_ptr(),
            sheet.len(),
            limit,
            choices.as_ptr(),
            choices.len(),
            log.as_mut_ptr(),
            log.len(),
            scratch.as_mut_ptr(),
            scratch.len(),
            &raw mut steps,
            &raw mut records,
        )
    };
    answer(word).map(|number| Ran { end: end(number), steps, records })
}

/// Derives the recipe's condition, and runs the recipe only if the sheet passes under it.
/// A run writes `log` as [`run`] does and `condition` as [`derive()`] does.
///
/// # Errors
/// [`Refusal::Room`] as [`derive()`]; then the refusals 2 to 8, 16, 9 to 11 and 13 to 15.
pub fn guarded(
    recipe: &[u8],
    sheet: &[u8],
    limit: u32,
    choices: &Choices,
    log: &mut [u8],
    condition: &mut [u8],
    scratch: &mut [u64],
) -> Result<Guarded, Refusal> {
    let choices = choices.as_bytes();
    let (mut steps, mut records) = (0, 0);
    // SAFETY: as above.
    let word = unsafe {
        library::gate_guarded(
            recipe.as_ptr(),
            recipe.len(),
            sheet.as_ptr(),
            sheet.len(),
            limit,
            choices.as_ptr(),
            choices.len(),
            log.as_mut_ptr(),
            log.len(),
            condition.as_mut_ptr(),
            condition.len(),
            scratch.as_mut_ptr(),
            scratch.len(),
            &raw mut steps,
            &raw mut records,
        )
    };
    answer(word).map(|number| match number {
        HELD => Guarded::Held,
        number => Guarded::Ran(Ran { end: end(number), steps, records }),
    })
}
