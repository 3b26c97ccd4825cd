//! The proved library beside a reference program, on files of the verdict program's input.
//!
//! The program takes `-r REPETITIONS -N NODES -L VALUES FILE` and prints a line with `us MEDIAN min FASTEST` in
//! microseconds; where it also prints `steps S`, `nodes N` and `values L`, those are compared.

use crate::inputs;
use crate::lent::{LARGEST, Lent};
use crate::pair::Pair;
use crate::timing::{LEAST_TURN, fastest, geometric_mean, in_turns, microseconds, ratio};
use crate::verdict;
use gannetrope::{Limits, Refusal, Report, Verdict};
use std::collections::BTreeMap;
use std::fs;
use std::io;
use std::path::{Path, PathBuf};
use std::process::Command;
use std::time::Duration;

/// How often the program judges a file in a turn, at least and at most.
const FEWEST_REPETITIONS: usize = 2;
const MOST_REPETITIONS: usize = 5000;

/// The program and the folder of inputs, from `REFERENCE` and `INPUTS`.
pub struct Reference {
    program: PathBuf,
    inputs: PathBuf,
}

/// The times of one file.
struct Row {
    family: String,
    refused: bool,
    ratio: f64,
}

impl Reference {
    pub fn from_environment() -> Option<Reference> {
        Some(Reference { program: PathBuf::from(std::env::var_os("REFERENCE")?), inputs: inputs::folder()? })
    }

    /// Times every file, prints a line for each and the means; notes what differs.
    pub fn compare(&self, differences: &mut Vec<String>) -> io::Result<()> {
        println!("{}", heading());
        let mut rows = Vec::new();
        let mut skipped = 0;
        for path in inputs::files(&self.inputs)? {
            match Pair::from_input(&fs::read(&path)?) {
                None => skipped += 1,
                Some(pair) => match self.measure(&path, &pair)? {
                    Ok(row) => rows.push(row),
                    Err(difference) => differences.push(difference),
                },
            }
        }
        println!("\n{}", summary(&rows, skipped));
        Ok(())
    }

    fn measure(&self, path: &Path, pair: &Pair) -> io::Result<Result<Row, String>> {
        let mut lent = lent_for(pair);
        let name = inputs::name(path);
        let estimate = fastest(|| pair.judge_by_library(&mut lent));
        let report = pair.judge_by_library(&mut lent);
        let line = self.run(path, lent.limits, 1)?;
        if let Some(difference) = disagreement(&line, &report) {
            return Ok(Err(format!("{name}: library: {report}; reference: {difference}")));
        }
        let (limits, repetitions) = (lent.limits, repetitions(estimate));
        let mut failure = None;
        let (library, reference) = in_turns(
            || fastest(|| pair.judge_by_library(&mut lent)),
            || {
                self.fastest(path, limits, repetitions).unwrap_or_else(|error| {
                    failure = Some(error);
                    Duration::MAX
                })
            },
        );
        if let Some(error) = failure {
            return Err(error);
        }
        println!("{}", line_of(&name, pair, &report, library, reference));
        let refused = verdict::is_refused(&report);
        Ok(Ok(Row { family: family(&name), refused, ratio: ratio(library, reference) }))
    }

    fn fastest(&self, path: &Path, limits: Limits, repetitions: usize) -> io::Result<Duration> {
        let line = self.run(path, limits, repetitions)?;
        let time: Option<f64> = field(&line, "min").and_then(|word| word.parse().ok());
        match time {
            Some(time) => Ok(Duration::from_secs_f64(time / 1e6)),
            None => Err(io::Error::other(format!("no time in '{}'", line.trim_end()))),
        }
    }

    fn run(&self, path: &Path, limits: Limits, repetitions: usize) -> io::Result<String> {
        let output = Command::new(&self.program)
            .args(["-r", &repetitions.to_string()])
            .args(["-N", &limits.nodes.to_string()])
            .args(["-L", &limits.values.to_string()])
            .arg(path)
            .output()?;
        String::from_utf8(output.stdout).map_err(io::Error::other)
    }
}

/// Stores of the verdict program's limits if the pair fits in them, else the largest.
fn lent_for(pair: &Pair) -> Lent {
    let mut lent = Lent::new(Limits::default());
    if verdict::is_full(&pair.judge_by_library(&mut lent)) { Lent::new(LARGEST) } else { lent }
}

/// About as many as the library is given for a turn.
fn repetitions(estimate: Duration) -> usize {
    let runs = LEAST_TURN.as_secs_f64() / estimate.as_secs_f64();
    (runs as usize).clamp(FEWEST_REPETITIONS, MOST_REPETITIONS)
}

/// The word after the last `key` of a line, past the name that it begins with.
fn field<'a>(line: &'a str, key: &str) -> Option<&'a str> {
    let words: Vec<&str> = line.split_whitespace().skip(1).collect();
    let at = words.iter().rposition(|&word| word == key)?;
    words.get(at + 1).copied()
}

/// What the reference's line says otherwise: the steps, and of an answered pair the nodes and values.
fn disagreement(line: &str, report: &Report) -> Option<String> {
    let expected = match report.verdict {
        Verdict::Refused(Refusal::Step { steps, .. }) => vec![("steps", steps)],
        Verdict::Refused(_) => vec![],
        _ => vec![("steps", report.steps), ("nodes", report.nodes), ("values", report.values)],
    };
    expected.into_iter().find_map(|(key, number)| {
        let found = field(line, key)?;
        (found != number.to_string()).then(|| format!("{key} {found}"))
    })
}

/// The beginning of a file's name.
fn family(name: &str) -> String {
    name.split('_').next().unwrap_or_default().to_string()
}

fn heading() -> String {
    format!(
        "{:<22} {:>6} {:>9} {:<9} {:>11} {:>12} {:>6}",
        "file", "qubits", "gates", "verdict", "proved us", "reference us", "ratio"
    )
}

fn line_of(name: &str, pair: &Pair, report: &Report, library: Duration, reference: Duration) -> String {
    format!(
        "{:<22} {:>6} {:>9} {:<9} {:>11.1} {:>12.1} {:>6.2}",
        name,
        pair.qubits,
        format!("{}+{}", pair.gates.0, pair.gates.1),
        verdict::word(report),
        microseconds(library),
        microseconds(reference),
        ratio(library, reference)
    )
}

fn summary(rows: &[Row], skipped: usize) -> String {
    let mut families: BTreeMap<&str, Vec<f64>> = BTreeMap::new();
    for row in rows {
        families.entry(&row.family).or_default().push(row.ratio);
    }
    let mut text = String::from("ratio to the reference, geometric means:\n");
    for (family, ratios) in &families {
        text += &mean_line(family, ratios);
    }
    let of = |wanted: &dyn Fn(&&Row) -> bool| -> Vec<f64> { rows.iter().filter(wanted).map(|row| row.ratio).collect() };
    text += &mean_line("all", &of(&|_| true));
    text += &mean_line("all answered", &of(&|row| !row.refused));
    text += &format!("  {skipped} files skipped: no inputs of the verdict program\n");
    text
}

fn mean_line(what: &str, ratios: &[f64]) -> String {
    match geometric_mean(ratios) {
        Some(mean) => format!("  {what:<14} {mean:.2} ({} files)\n", ratios.len()),
        None => format!("  {what:<14} none\n"),
    }
}
