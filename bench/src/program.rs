//! The verdict program as a whole process.

use crate::agreement::Agreement;
use crate::circuit::{Circuit, Code, Gate};
use crate::pair::Pair;
use crate::timing::microseconds;
use gannetrope::{Limits, Report};
use std::io::{self, Write};
use std::path::{Path, PathBuf};
use std::process::{Command, Stdio};
use std::time::{Duration, Instant};

const RUNS: usize = 300;

/// The path in `GANNETROPE_VERDICT`, else where `scripts/build verdict` leaves the program; `None` if nothing is there.
pub fn path() -> Option<PathBuf> {
    let path = match std::env::var_os("GANNETROPE_VERDICT") {
        Some(path) => PathBuf::from(path),
        None => Path::new(env!("CARGO_MANIFEST_DIR")).join("../target/bin/verdict"),
    };
    path.exists().then_some(path)
}

/// Compares the program's line for the pair with a report at the program's limits.
pub fn check(program: &Path, pair: &Pair, report: &Report) -> Agreement {
    let line = run(program, &pair.input())?;
    if line == format!("{report}\n") {
        return Ok(());
    }
    Err(format!("verdict program: {}; else: {report}", line.trim_end()))
}

/// Times the program on a small pair, beside a program that does nothing.
pub fn measure(program: &Path) -> Result<String, String> {
    let pair = small_pair();
    check(program, &pair, &pair.judge_by_hash_maps(Limits::default()).report)?;
    let input = pair.input();
    let (mut whole, mut nothing) = (Vec::new(), Vec::new());
    for _ in 0..RUNS {
        whole.push(time(program, &input)?);
        nothing.push(time(Path::new("true"), &[])?);
    }
    Ok(format!(
        "verdict program, whole process, CNOT against H CZ H: {}; the program 'true': {}",
        spread(whole),
        spread(nothing)
    ))
}

/// A CNOT and its rewriting.
fn small_pair() -> Pair {
    let circuit = |gates| Circuit { qubits: 2, gates };
    let h = Gate::one(Code::H, 1);
    Pair::new(&circuit(vec![Gate::two(Code::Cnot, 0, 1)]), &circuit(vec![h, Gate::two(Code::Cz, 0, 1), h]))
}

fn time(program: &Path, input: &[u8]) -> Result<Duration, String> {
    let start = Instant::now();
    run(program, input)?;
    Ok(start.elapsed())
}

/// What a program writes for an input.
fn run(program: &Path, input: &[u8]) -> Result<String, String> {
    output(program, input).map_err(|error| format!("{}: {error}", program.display()))
}

fn output(program: &Path, input: &[u8]) -> io::Result<String> {
    let mut child = Command::new(program).stdin(Stdio::piped()).stdout(Stdio::piped()).spawn()?;
    if !input.is_empty() {
        child.stdin.take().expect("a pipe").write_all(input)?;
    }
    let output = child.wait_with_output()?;
    String::from_utf8(output.stdout).map_err(io::Error::other)
}

fn spread(mut times: Vec<Duration>) -> String {
    times.sort();
    format!("median {:.0} us, fastest {:.0} us", microseconds(times[times.len() / 2]), microseconds(times[0]))
}
