//! One call of the library on dirty stores, held to what it must come to.

use gannetrope::{Report, Store, judge_in};

use crate::dense::diagram::Diagram;
use crate::dense::{Call, Lengths, Outcome, Stores};
use crate::hex;
use crate::tally::{Checked, alike};

/// Both stores of a call.
#[derive(Clone, Debug, PartialEq, Eq)]
pub struct Lent {
    pub first: Store,
    pub second: Store,
}

impl Lent {
    /// Stores of these lengths, filled from a seed as the vectors' README says.
    pub fn dirty(first: &Lengths, second: &Lengths, seed: u32) -> Lent {
        Lent { first: dirty_store(first, 0, seed), second: dirty_store(second, 7, seed) }
    }

    pub fn for_call(call: &Call, seed: u32) -> Lent {
        Lent::dirty(&call.first, &call.second, seed)
    }
}

fn dirty_store(lengths: &Lengths, first_column: u32, seed: u32) -> Store {
    let slot = |column: u32, index: usize| {
        seed.wrapping_mul(2_654_435_761)
            .wrapping_add((first_column + column).wrapping_mul(40_503))
            .wrapping_add((index as u32).wrapping_mul(2_246_822_519))
            .wrapping_add(12_345)
    };
    let nodes = |column: u32| (0..lengths[column as usize]).map(|index| slot(column, index)).collect();
    let values = |column: u32| (0..lengths[column as usize]).map(|index| slot(column, index) as i32).collect();
    Store { level: nodes(0), low: nodes(1), high: nodes(2), a: values(3), b: values(4), c: values(5), d: values(6) }
}

/// Makes the call on stores filled from a seed.
pub fn check(call: &Call, seed: u32, expected: &Outcome) -> Checked {
    check_in(call, &mut Lent::for_call(call, seed), expected).map_err(|wrong| format!("{wrong}, dirt {seed}"))
}

/// Makes the call on these stores.
pub fn check_in(call: &Call, lent: &mut Lent, expected: &Outcome) -> Checked {
    let before = lent.clone();
    let report = perform(call, lent);
    alike("report", report, expected.report)
        .and_then(|()| check_stores(&before, lent, &expected.stores))
        .map_err(|wrong| format!("{wrong}\n  {}", describe(call)))
}

pub fn perform(call: &Call, lent: &mut Lent) -> Report {
    judge_in(&call.list1, &call.list2, &call.schedule, call.w, lent.first.columns(), lent.second.columns())
}

fn check_stores(before: &Lent, after: &Lent, expected: &Stores) -> Checked {
    match expected {
        Stores::Unchanged => {
            same_store("first store", &after.first, &before.first)?;
            same_store("second store", &after.second, &before.second)
        }
        Stores::Zero => {
            same_store("first store", &after.first, &zero_like(&before.first))?;
            same_store("second store", &after.second, &zero_like(&before.second))
        }
        Stores::Diagram(diagram) => {
            same_store("first store", &after.first, &holding(diagram, &before.first))?;
            same_store("second store", &after.second, &zero_like(&before.second))
        }
    }
}

fn zero_like(store: &Store) -> Store {
    Store {
        level: vec![0; store.level.len()],
        low: vec![0; store.low.len()],
        high: vec![0; store.high.len()],
        a: vec![0; store.a.len()],
        b: vec![0; store.b.len()],
        c: vec![0; store.c.len()],
        d: vec![0; store.d.len()],
    }
}

/// A store as long as the given one that holds the diagram, its other slots 0.
fn holding(diagram: &Diagram, long_as: &Store) -> Store {
    let mut store = zero_like(long_as);
    for (slot, node) in diagram.nodes.iter().enumerate() {
        store.level[slot] = node.level;
        store.low[slot] = node.low;
        store.high[slot] = node.high;
    }
    for (slot, value) in diagram.values.iter().enumerate() {
        let value = value.narrow();
        store.a[slot] = value.a;
        store.b[slot] = value.b;
        store.c[slot] = value.c;
        store.d[slot] = value.d;
    }
    store
}

fn same_store(name: &str, found: &Store, expected: &Store) -> Checked {
    same_column(name, "level", &found.level, &expected.level)?;
    same_column(name, "low", &found.low, &expected.low)?;
    same_column(name, "high", &found.high, &expected.high)?;
    same_column(name, "a", &found.a, &expected.a)?;
    same_column(name, "b", &found.b, &expected.b)?;
    same_column(name, "c", &found.c, &expected.c)?;
    same_column(name, "d", &found.d, &expected.d)
}

fn same_column<T: PartialEq + std::fmt::Display>(store: &str, column: &str, found: &[T], expected: &[T]) -> Checked {
    match found.iter().zip(expected).position(|(found, expected)| found != expected) {
        None => Ok(()),
        Some(slot) => Err(format!("{store}, {column}[{slot}]: found {}, expected {}", found[slot], expected[slot])),
    }
}

/// The call as hex and numbers.
pub fn describe(call: &Call) -> String {
    format!(
        "list1 {} list2 {} schedule {} w {} columns {:?} {:?}",
        hex::encode(&call.list1),
        hex::encode(&call.list2),
        hex::encode(&call.schedule),
        call.w,
        call.first,
        call.second,
    )
}
