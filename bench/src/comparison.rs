//! The families: the proved library beside the hash-map implementation, in one table.

use crate::agreement;
use crate::families::{Case, Growth};
use crate::hashed::Work;
use crate::lent::{LARGEST, Lent, limits_for};
use crate::pair::Pair;
use crate::timing::{fastest, geometric_mean, in_turns, microseconds, ratio};
use crate::verdict;
use std::collections::BTreeMap;
use std::time::Duration;

/// What was measured of a case.
pub struct Row {
    growth: Option<Growth>,
    qubits: u8,
    work: Work,
    library: Duration,
    hash_maps: Duration,
}

impl Row {
    fn nanoseconds_per_node_and_step(&self) -> f64 {
        self.library.as_secs_f64() * 1e9 / self.work.node_steps as f64
    }

    fn ratio(&self) -> f64 {
        ratio(self.library, self.hash_maps)
    }
}

/// Times the case and prints its line, or gives what differs.
pub fn measure(case: &Case) -> Result<Row, String> {
    let pair = Pair::new(&case.first, &case.second);
    let judged = pair.judge_by_hash_maps(LARGEST);
    let limits = limits_for(&judged.work);
    let mut lent = Lent::new(limits);
    let (library, hash_maps) =
        in_turns(|| fastest(|| pair.judge_by_library(&mut lent)), || fastest(|| pair.judge_by_hash_maps(limits)));
    agreement::check(&pair, &mut lent, &judged)
        .and_then(|()| case.check_made(&judged.report))
        .map_err(|wrong| format!("{}: {wrong}", case.name()))?;
    let row = Row { growth: case.growth, qubits: pair.qubits, work: judged.work, library, hash_maps };
    println!("{}", line(case, verdict::word(&judged.report), &row));
    Ok(row)
}

/// What the columns are: `ns/node` is the library's time by the sum over the steps of the nodes of the product.
pub fn heading() -> String {
    format!(
        "{:<18} {:<11} {:>6} {:>9} {:<9} {:>6} {:>11} {:>8} {:>11} {:>6}",
        "family", "second list", "qubits", "gates", "verdict", "peak", "proved us", "ns/node", "hashmap us", "ratio"
    )
}

fn line(case: &Case, verdict: &str, row: &Row) -> String {
    format!(
        "{:<18} {:<11} {:>6} {:>9} {:<9} {:>6} {:>11.1} {:>8.1} {:>11.1} {:>6.3}",
        case.family,
        case.second_is,
        row.qubits,
        case.gates(),
        verdict,
        row.work.peak_nodes,
        microseconds(row.library),
        row.nanoseconds_per_node_and_step(),
        microseconds(row.hash_maps),
        row.ratio()
    )
}

/// The summary lines: the mean ratio, and how the time per node and step grows.
pub fn summary(rows: &[Row]) -> String {
    let ratios: Vec<f64> = rows.iter().map(Row::ratio).collect();
    let Some(mean) = geometric_mean(&ratios) else {
        return "nothing was measured\n".to_string();
    };
    let largest = ratios.iter().copied().fold(0.0, f64::max);
    let count = rows.len();
    format!(
        "ratio to hash maps: geometric mean {mean:.3}, largest {largest:.3}, {count} pairs\n{}{}",
        growth_with_nodes(rows),
        growth_with_gates(rows)
    )
}

fn growth_with_nodes(rows: &[Row]) -> String {
    let mut text = String::from("growth with nodes, ns per node and step:\n");
    let mut times = Vec::new();
    for row in rows {
        if let Some(Growth::Nodes(nodes)) = row.growth {
            let time = row.nanoseconds_per_node_and_step();
            let (peak, qubits) = (row.work.peak_nodes, row.qubits);
            text += &format!("  {nodes:>6} nodes (peak {peak}, {qubits} qubits): {time:.1}\n");
            times.push(time);
        }
    }
    text + &format!("  most / least: {:.2}\n", most_by_least(&times))
}

fn growth_with_gates(rows: &[Row]) -> String {
    let mut by_qubits: BTreeMap<u8, Vec<(usize, f64)>> = BTreeMap::new();
    for row in rows {
        if let Some(Growth::Gates(gates)) = row.growth {
            let point = (gates, row.nanoseconds_per_node_and_step());
            by_qubits.entry(row.qubits).or_default().push(point);
        }
    }
    let mut text = String::from("growth with gates, ns per node and step:\n");
    for (qubits, points) in by_qubits {
        let shown: Vec<String> = points.iter().map(|(gates, time)| format!("{gates} gates {time:.1}")).collect();
        let times: Vec<f64> = points.iter().map(|point| point.1).collect();
        let spread = most_by_least(&times);
        text += &format!("  {qubits:>2} qubits: {}; most / least: {spread:.2}\n", shown.join(", "));
    }
    text
}

fn most_by_least(times: &[f64]) -> f64 {
    let most = times.iter().copied().fold(0.0, f64::max);
    let least = times.iter().copied().fold(f64::INFINITY, f64::min);
    most / least
}
