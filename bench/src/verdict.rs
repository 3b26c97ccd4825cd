//! Verdicts in a word, and the refusals of a step.

use gannetrope::{Report, Verdict};

/// The step's product has a number outside the width.
pub const OUTSIDE_WIDTH: u32 = 13;

/// The step's product needs more nodes or values than the stores hold.
pub const NO_ROOM: u32 = 14;

pub fn is_refused(report: &Report) -> bool {
    refusal(report).is_some()
}

/// The number of the refusal, if it is one.
pub fn refusal(report: &Report) -> Option<u32> {
    match report.verdict {
        Verdict::Refused(refusal) => Some(refusal.number()),
        _ => None,
    }
}

/// Whether a store was too small.
pub fn is_full(report: &Report) -> bool {
    refusal(report) == Some(NO_ROOM)
}

pub fn word(report: &Report) -> &'static str {
    match report.verdict {
        Verdict::Equal { .. } => "equal",
        Verdict::Different { .. } => "different",
        Verdict::Refused(_) => "refused",
    }
}
