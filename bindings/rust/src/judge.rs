//! The judging call.

use crate::report::Slots;
use crate::schedule::proportional_of;
use crate::store::MOST_SLOTS;
use crate::{Columns, Entry, Node, Report, Schedule, Store, raw, with_stack};

/// What a call may use: the width of its numbers and the sizes of its stores.
#[derive(Clone, Copy, Debug, PartialEq, Eq)]
pub struct Limits {
    /// The width in bits that every number of a step's product must fit, 2 to 32.
    pub width: u32,
    /// How many nodes a diagram may have, at most [`MOST_SLOTS`].
    pub nodes: usize,
    /// How many values it may have, 1 to [`MOST_SLOTS`].
    pub values: usize,
}

/// Those of the verdict program: width 32, 4,096 nodes, 1,024 values.
impl Default for Limits {
    fn default() -> Self {
        Limits { width: 32, nodes: 4096, values: 1024 }
    }
}

/// A judged pair: the report and the miter's reduced diagram.
#[derive(Clone, Debug)]
pub struct Judged {
    report: Report,
    first: Store,
}

impl Judged {
    /// The report.
    pub fn report(&self) -> Report {
        self.report
    }

    /// The nodes of the miter's reduced diagram, the root last; none if the call was refused.
    pub fn nodes(&self) -> impl ExactSizeIterator<Item = Node> + '_ {
        (0..self.report.nodes as usize).map(|slot| Node {
            level: self.first.level[slot],
            low: self.first.low[slot],
            high: self.first.high[slot],
        })
    }

    /// The values of the miter's reduced diagram; none if the call was refused.
    pub fn values(&self) -> impl ExactSizeIterator<Item = Entry> + '_ {
        (0..self.report.values as usize).map(|slot| Entry {
            a: self.first.a[slot],
            b: self.first.b[slot],
            c: self.first.c[slot],
            d: self.first.d[slot],
        })
    }
}

/// Judges whether two gate lists are the same operator up to a factor.
///
/// Every input is fine: what breaks a rule is refused in the report. [`with_stack`] makes many calls cheaper.
///
/// # Panics
/// If the system gives no thread to run the call on.
///
/// ```
/// use gannetrope::{Entry, Limits, Schedule, Verdict, judge};
///
/// let two_h = [1, 2, 3, 0, 3, 0]; // one qubit, two gates: H 0, H 0
/// let empty = [1, 0];
/// let judged = judge(&two_h, &empty, Schedule::Proportional, Limits::default());
/// assert_eq!(judged.report().verdict, Verdict::Equal { factor: Entry::new(0, 0, 0, 1) });
/// assert_eq!(judged.report().exponent, 0);
/// ```
pub fn judge(list1: &[u8], list2: &[u8], schedule: Schedule<'_>, limits: Limits) -> Judged {
    // one slot over the limit is refused like any number over it
    let nodes = limits.nodes.min(MOST_SLOTS + 1);
    let values = limits.values.min(MOST_SLOTS + 1);
    let mut first = Store::new(nodes, values);
    let mut second = Store::new(nodes, values);
    let made;
    let schedule = match schedule {
        Schedule::Lent(lent) => lent,
        Schedule::Proportional => {
            made = proportional_of(list1, list2);
            &made
        }
    };
    let report = judge_in(list1, list2, schedule, limits.width, first.columns(), second.columns());
    Judged { report, first }
}

/// Judges two gate lists by a lent schedule in lent columns of any lengths and contents.
///
/// After equal or different the first store holds the miter's reduced diagram with its unused slots 0, and the second
/// is all 0. The refusals 1 to 12 and 17 change no column; 13 and 14 leave all of them 0.
///
/// # Panics
/// If the system gives no thread to run the call on.
pub fn judge_in(
    list1: &[u8],
    list2: &[u8],
    schedule: &[u8],
    w: u32,
    first: Columns<'_>,
    second: Columns<'_>,
) -> Report {
    with_stack(|| call(list1, list2, schedule, w, first, second))
}

#[rustfmt::skip]
fn call(list1: &[u8], list2: &[u8], schedule: &[u8], w: u32, first: Columns<'_>, second: Columns<'_>) -> Report {
    let mut slots = Slots::default();
    // SAFETY: each pointer comes with its own slice's length; the columns and the slots are borrowed mutably, so none
    // overlaps another or a list; `with_stack` leaves more stack than the call needs.
    let status = unsafe {
        raw::gannetrope_judge(
            list1.as_ptr(), list1.len(),
            list2.as_ptr(), list2.len(),
            schedule.as_ptr(), schedule.len(),
            w,
            first.level.as_mut_ptr(), first.level.len(),
            first.low.as_mut_ptr(), first.low.len(),
            first.high.as_mut_ptr(), first.high.len(),
            first.a.as_mut_ptr(), first.a.len(),
            first.b.as_mut_ptr(), first.b.len(),
            first.c.as_mut_ptr(), first.c.len(),
            first.d.as_mut_ptr(), first.d.len(),
            second.level.as_mut_ptr(), second.level.len(),
            second.low.as_mut_ptr(), second.low.len(),
            second.high.as_mut_ptr(), second.high.len(),
            second.a.as_mut_ptr(), second.a.len(),
            second.b.as_mut_ptr(), second.b.len(),
            second.c.as_mut_ptr(), second.c.len(),
            second.d.as_mut_ptr(), second.d.len(),
            slots.numbers.as_mut_ptr(), slots.numbers.len(),
            slots.entries.as_mut_ptr(), slots.entries.len(),
        )
    };
    assert_eq!(status, 0, "the slots are long enough");
    slots.report()
}
