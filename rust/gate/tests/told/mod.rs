//! The proved gate's answer as the independent implementation gives it.

use gate::{Cause, Refusal, Verdict};
use gate_oracle::Cause::{Above, Below, NoDivisor};

pub fn told(answer: Result<Verdict, Refusal>) -> Result<gate_oracle::Verdict, u8> {
    match answer {
        Ok(Verdict::Pass) => Ok(gate_oracle::Verdict::Pass),
        Ok(Verdict::Held(Cause::TooBig)) => Ok(gate_oracle::Verdict::Held(Above)),
        Ok(Verdict::Held(Cause::TooSmall)) => Ok(gate_oracle::Verdict::Held(Below)),
        Ok(Verdict::Held(Cause::NoDivisor)) => Ok(gate_oracle::Verdict::Held(NoDivisor)),
        Err(refusal) => Err(refusal.number()),
    }
}
