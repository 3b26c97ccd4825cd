//! How many pairs are answered at the verdict program's settings, before exponents were lowered (S-4) and after.
//!
//! After is the proved library. Before is the hash-map implementation that keeps the exponent: it gives what the
//! library gave before exponents were lowered.

use crate::agreement::Agreement;
use crate::families::Case;
use crate::lent::Lent;
use crate::pair::Pair;
use crate::samples::Sample;
use crate::verdict::{self, NO_ROOM, OUTSIDE_WIDTH};
use gannetrope::{Limits, Report};

/// What was counted of a sample.
#[derive(Default)]
pub struct Row {
    equal: Tally,
    changed: Tally,
}

/// How many of some pairs are answered, and what is refused after.
#[derive(Default)]
struct Tally {
    pairs: usize,
    before: usize,
    after: usize,
    outside_width: usize,
    no_room: usize,
}

impl Row {
    fn add(&mut self, [equal, changed]: &[Case; 2], lent: &mut Lent) -> Agreement {
        self.equal.add(&reports(equal, lent)?);
        self.changed.add(&reports(changed, lent)?);
        Ok(())
    }
}

impl Tally {
    fn add(&mut self, Reports { before, after }: &Reports) {
        self.pairs += 1;
        self.before += usize::from(!verdict::is_refused(before));
        match verdict::refusal(after) {
            None => self.after += 1,
            Some(OUTSIDE_WIDTH) => self.outside_width += 1,
            Some(NO_ROOM) => self.no_room += 1,
            Some(number) => unreachable!("well-formed lists are not refused with {number}"),
        }
    }
}

struct Reports {
    before: Report,
    after: Report,
}

/// Counts the answers and prints the sample's line, or gives what is wrong with one of them.
pub fn count(sample: &Sample) -> Result<Row, String> {
    let mut row = Row::default();
    let lent = &mut Lent::new(Limits::default());
    for (number, cases) in sample.pairs().enumerate() {
        row.add(&cases, lent).map_err(|wrong| format!("pair {number} of {}: {wrong}", sample.name()))?;
    }
    println!("{}", line(sample, &row));
    Ok(row)
}

fn reports(case: &Case, lent: &mut Lent) -> Result<Reports, String> {
    let pair = Pair::new(&case.first, &case.second);
    let before = pair.judge_with_kept_exponents(lent.limits).report;
    let after = pair.judge_by_library(lent);
    let reports = Reports { before, after };
    check(case, &reports)?;
    Ok(reports)
}

/// Whether the answers are what the lists were made for, and none was lost.
fn check(case: &Case, Reports { before, after }: &Reports) -> Agreement {
    case.check_unless_refused(before)?;
    case.check_unless_refused(after)?;
    let is_lost = verdict::is_refused(after) && !verdict::is_refused(before);
    if is_lost { Err(format!("{after}, but before it was {before}")) } else { Ok(()) }
}

/// What the columns are: `gates` are those of the first pair, `13` and `14` the refusals after, of equal and changed
/// pairs together.
pub fn heading() -> String {
    format!(
        "{:<19} {:<11} {:>6} {:>9} {:>5} {:>12} {:>11} {:>14} {:>13} {:>3} {:>3}",
        "family",
        "second list",
        "qubits",
        "gates",
        "pairs",
        "equal before",
        "equal after",
        "changed before",
        "changed after",
        "13",
        "14"
    )
}

fn line(sample: &Sample, Row { equal, changed }: &Row) -> String {
    format!(
        "{:<19} {:<11} {:>6} {:>9} {:>5} {:>12} {:>11} {:>14} {:>13} {:>3} {:>3}",
        sample.family(),
        sample.second_is(),
        sample.qubits,
        sample.gates(),
        equal.pairs,
        equal.before,
        equal.after,
        changed.before,
        changed.after,
        equal.outside_width + changed.outside_width,
        equal.no_room + changed.no_room
    )
}

/// The summary line: all samples together.
pub fn summary(rows: &[Row]) -> String {
    let of_all = |part: fn(&Row) -> usize| rows.iter().map(part).sum::<usize>();
    format!(
        "answered before and after: {} and {} of {} equal pairs, {} and {} of {} changed ones",
        of_all(|row| row.equal.before),
        of_all(|row| row.equal.after),
        of_all(|row| row.equal.pairs),
        of_all(|row| row.changed.before),
        of_all(|row| row.changed.after),
        of_all(|row| row.changed.pairs)
    )
}

#[cfg(test)]
mod tests {
    use super::*;
    use crate::circuit::Circuit;
    use gannetrope::{Entry, Refusal, Verdict};

    const EQUAL: Report = Report {
        verdict: Verdict::Equal { factor: Entry::new(0, 0, 0, 1) },
        exponent: 0,
        steps: 0,
        nodes: 3,
        values: 2,
    };

    const fn refused(number: u32) -> Report {
        Report::refused(Refusal::Step { number, steps: 0 })
    }

    fn made(is_equal: bool) -> Case {
        let empty = Circuit { qubits: 1, gates: vec![] };
        Case { family: "none", second_is: "empty", is_equal, first: empty.clone(), second: empty, growth: None }
    }

    #[test]
    fn each_report_is_counted_once() {
        let mut tally = Tally::default();
        for (before, after) in [
            (EQUAL, EQUAL),
            (refused(OUTSIDE_WIDTH), EQUAL),
            (refused(OUTSIDE_WIDTH), refused(OUTSIDE_WIDTH)),
            (refused(NO_ROOM), refused(NO_ROOM)),
        ] {
            tally.add(&Reports { before, after });
        }
        let Tally { pairs, before, after, outside_width, no_room } = tally;
        assert_eq!((pairs, before, after, outside_width, no_room), (4, 1, 2, 1, 1));
    }

    #[test]
    fn a_lost_answer_is_wrong() {
        let lost = Reports { before: EQUAL, after: refused(OUTSIDE_WIDTH) };
        assert!(check(&made(true), &lost).is_err());
        let won = Reports { before: refused(OUTSIDE_WIDTH), after: EQUAL };
        assert!(check(&made(true), &won).is_ok());
    }

    #[test]
    fn another_answer_is_wrong() {
        let equal = Reports { before: refused(OUTSIDE_WIDTH), after: EQUAL };
        assert!(check(&made(false), &equal).is_err());
    }
}
