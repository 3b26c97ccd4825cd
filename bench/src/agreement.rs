//! Whether the library leaves what the hash-map implementation finds: the report and every slot of both stores.

use crate::hashed::{Diagram, Judged};
use crate::lent::Lent;
use crate::pair::Pair;

/// What a comparison comes to: nothing, or what differs.
pub type Agreement = Result<(), String>;

/// Judges the pair by the library, and compares.
pub fn check(pair: &Pair, lent: &mut Lent, judged: &Judged) -> Agreement {
    let report = pair.judge_by_library(lent);
    if report != judged.report {
        return Err(format!("library: {report}; hash maps: {}", judged.report));
    }
    if lent.first != judged.diagram.store(lent.limits) {
        return Err(format!("{report}, but the first store is another"));
    }
    if lent.second != Diagram::default().store(lent.limits) {
        return Err(format!("{report}, but the second store is not empty"));
    }
    Ok(())
}
