//! The gate's answer on a sheet.

use std::fmt;

/// Whether a sheet passes.
///
/// ```
/// use gate::{Cause, Verdict};
/// assert_eq!(Verdict::Held(Cause::NoDivisor).to_string(), "held no divisor");
/// ```
#[derive(Clone, Copy, Debug, PartialEq, Eq)]
pub enum Verdict {
    /// No choice of readings overflows at any step on the way to a site.
    Pass,
    /// Some choice does, and first for this cause.
    Held(Cause),
}

/// Why a sheet is held: the cause of the first failure. Conjuncts go in the condition's order; combinations of
/// readings with the last atom's running fastest, atoms by first appearance and readings as listed; within a
/// combination the first step in postfix order counts.
#[derive(Clone, Copy, Debug, PartialEq, Eq, Hash, PartialOrd, Ord)]
#[repr(u8)]
pub enum Cause {
    /// A result above its type's range.
    TooBig = 1,
    /// A result below its type's range.
    TooSmall,
    /// A divisor of 0.
    NoDivisor,
}

impl Cause {
    /// Every cause, by number.
    pub const ALL: [Cause; 3] = [Cause::TooBig, Cause::TooSmall, Cause::NoDivisor];

    /// Its number, 1 to 3.
    #[must_use]
    pub fn number(self) -> u8 {
        self as u8
    }

    /// The cause with a number.
    #[must_use]
    pub fn numbered(number: u64) -> Option<Cause> {
        Cause::ALL.into_iter().find(|cause| u64::from(cause.number()) == number)
    }
}

impl fmt::Display for Cause {
    fn fmt(&self, out: &mut fmt::Formatter<'_>) -> fmt::Result {
        out.write_str(match self {
            Cause::TooBig => "too big",
            Cause::TooSmall => "too small",
            Cause::NoDivisor => "no divisor",
        })
    }
}

impl fmt::Display for Verdict {
    fn fmt(&self, out: &mut fmt::Formatter<'_>) -> fmt::Result {
        match self {
            Verdict::Pass => out.write_str("pass"),
            Verdict::Held(cause) => write!(out, "held {cause}"),
        }
    }
}
