//! What is lent to the library's call: its limits and both stores.

use crate::hashed::Work;
use gannetrope::{Limits, MOST_SLOTS, Store};

/// The width that everything is judged at.
const WIDTH: u32 = 32;

/// The largest stores.
pub const LARGEST: Limits = Limits { width: WIDTH, nodes: MOST_SLOTS, values: MOST_SLOTS };

/// The verdict program's limits if a run's diagrams fit them, else the largest.
pub fn limits_for(work: &Work) -> Limits {
    let small = Limits::default();
    let fits = work.peak_nodes <= small.nodes && work.peak_values <= small.values;
    if fits { small } else { LARGEST }
}

pub struct Lent {
    pub limits: Limits,
    pub first: Store,
    pub second: Store,
}

impl Lent {
    /// Stores full of ones: earlier contents must not matter.
    pub fn new(limits: Limits) -> Lent {
        Lent { limits, first: ones(limits), second: ones(limits) }
    }
}

fn ones(limits: Limits) -> Store {
    let mut store = Store::new(limits.nodes, limits.values);
    let columns = store.columns();
    for column in [columns.level, columns.low, columns.high] {
        column.fill(1);
    }
    for column in [columns.a, columns.b, columns.c, columns.d] {
        column.fill(1);
    }
    store
}
