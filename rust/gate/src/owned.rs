//! The calls with memory of their own.

use crate::{convert, derive, guarded, records, run, scratch};
use crate::{Choices, End, Guarded, Ran, Record, Refusal, CONDITION, RECIPE, RECORD};

/// A run: its end, the steps that it took and its records.
#[derive(Clone, Debug, PartialEq, Eq)]
pub struct Run {
    pub end: End,
    pub steps: u64,
    pub records: Vec<Record>,
}

impl Run {
    /// A run's numbers with what it has logged.
    fn of(ran: Ran, log: &[u8]) -> Run {
        let number = usize::try_from(ran.records).expect("the records stand in the log");
        Run { end: ran.end, steps: ran.steps, records: records(log).take(number).collect() }
    }
}

/// The gate with its scratch: one for each thread, for any number of calls.
pub struct Gate {
    condition: Vec<u8>,
    scratch: Vec<u64>,
}

impl Gate {
    #[must_use]
    pub fn new() -> Gate {
        Gate { condition: vec![0; CONDITION], scratch: scratch() }
    }

    /// The recipe's condition file.
    ///
    /// # Errors
    /// The refusals 2 to 11 and 16.
    pub fn derive(&mut self, recipe: &[u8]) -> Result<Vec<u8>, Refusal> {
        let length = derive(recipe, &mut self.condition, &mut self.scratch)?;
        Ok(self.condition[..length].to_vec())
    }

    /// A recipe of the form before document 02's Card 5 in today's form.
    ///
    /// # Errors
    /// The refusals 2 to 8 and 16 of the old form.
    pub fn convert(&mut self, old: &[u8]) -> Result<Vec<u8>, Refusal> {
        let mut recipe = vec![0; RECIPE];
        let length = convert(old, &mut recipe, &mut self.scratch)?;
        recipe.truncate(length);
        Ok(recipe)
    }

    /// Runs the recipe on the sheet for at most `limit` steps and `most` records, whether or not it passes.
    ///
    /// # Errors
    /// The refusals 2 to 8, 13 and 16.
    pub fn run(
        &mut self,
        recipe: &[u8],
        sheet: &[u8],
        limit: u32,
        choices: &Choices,
        most: usize,
    ) -> Result<Run, Refusal> {
        let mut log = vec![0; most * RECORD];
        let ran = run(recipe, sheet, limit, choices, &mut log, &mut self.scratch)?;
        Ok(Run::of(ran, &log))
    }

    /// Runs the recipe as [`Gate::run`] does if the sheet passes under its condition; nothing if it is held, for a
    /// cause that [`check`](crate::check) tells.
    ///
    /// # Errors
    /// The refusals 2 to 11 and 13 to 16.
    pub fn guarded(
        &mut self,
        recipe: &[u8],
        sheet: &[u8],
        limit: u32,
        choices: &Choices,
        most: usize,
    ) -> Result<Option<Run>, Refusal> {
        let mut log = vec![0; most * RECORD];
        let answer = guarded(recipe, sheet, limit, choices, &mut log, &mut self.condition, &mut self.scratch)?;
        Ok(match answer {
            Guarded::Held => None,
            Guarded::Ran(ran) => Some(Run::of(ran, &log)),
        })
    }
}

impl Default for Gate {
    fn default() -> Gate {
        Gate::new()
    }
}
