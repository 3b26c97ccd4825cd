//! The time of a refused step beside that of the step before it.

use crate::agreement;
use crate::hashed::Work;
use crate::late_refusals::LateRefusal;
use crate::lent::Lent;
use crate::timing::{least_processor_time, microseconds, ratio};
use std::time::Duration;

/// A refused step may take this many times as long as the step before it.
const MOST_RATIO: f64 = 10.0;

/// How often the step before is undone and done again, so that its time stands out from the noise of whole runs.
const REPETITIONS: u32 = 10;

/// What was measured of a late refusal.
pub struct Row {
    refused: Duration,
    before: Duration,
}

impl Row {
    fn ratio(&self) -> f64 {
        ratio(self.refused, self.before)
    }
}

/// Times the refusal and prints its line, or gives what differs.
pub fn measure(late: &LateRefusal) -> Result<Row, String> {
    let pair = late.refused();
    let judged = pair.judge_by_hash_maps(late.limits);
    let mut lent = Lent::new(late.limits);
    late.check_made(&judged.report)
        .and_then(|()| agreement::check(&pair, &mut lent, &judged))
        .map_err(|wrong| format!("{}: {wrong}", late.name()))?;

    let runs = [&pair, &late.answered(), &late.repeated(REPETITIONS as usize)];
    let [refused, answered, repeated] = least_processor_time(runs, |run| run.judge_by_library(&mut lent));
    // a repetition is two steps
    let before = repeated.saturating_sub(answered) / (2 * REPETITIONS);
    let row = Row { refused: refused.saturating_sub(answered), before };
    println!("{}", line(late, pair.gates, &judged.work, &row));
    Ok(row)
}

/// What the columns are: `nodes` and `values` are the most that a step of the run needs, the refused one included.
pub fn heading() -> String {
    format!(
        "{:<11} {:>6} {:>6} {:>6} {:>7} {:>5} {:>5} {:>6} {:>6} {:>10} {:>9} {:>6}",
        "second list",
        "qubits",
        "gates",
        "steps",
        "refused",
        "N",
        "L",
        "nodes",
        "values",
        "refused us",
        "before us",
        "ratio"
    )
}

fn line(late: &LateRefusal, (first, second): (usize, usize), work: &Work, row: &Row) -> String {
    format!(
        "{:<11} {:>6} {:>6} {:>6} {:>7} {:>5} {:>5} {:>6} {:>6} {:>10.1} {:>9.1} {:>6.2}",
        late.second_is,
        late.qubits,
        format!("{first}+{second}"),
        late.finished().len(),
        format!("{:?}", late.refused_gate()),
        late.limits.nodes,
        late.limits.values,
        work.peak_nodes,
        work.peak_values,
        microseconds(row.refused),
        microseconds(row.before),
        row.ratio()
    )
}

/// The summary line, or that a refused step takes too long.
pub fn summary(rows: &[Row]) -> Result<String, String> {
    let largest = rows.iter().map(Row::ratio).max_by(f64::total_cmp).ok_or("no late refusal was measured")?;
    let measured = format!("a refused step takes up to {largest:.2} times as long as the step before it");
    if largest <= MOST_RATIO {
        return Ok(format!("{measured}, {MOST_RATIO} times at most are allowed; {} refusals", rows.len()));
    }
    Err(format!("{measured}, more than {MOST_RATIO} times"))
}
