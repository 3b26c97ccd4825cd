//! The benchmark: the proved library beside a plain hash-map implementation, over circuits made by seed.
//!
//! `--check` compares reports and stores without timing. `GANNETROPE_VERDICT` names the verdict program; `REFERENCE`
//! and `INPUTS` a reference program and a folder of inputs to time it on. It exits with 1 if anything differs, if an
//! answer that was had before exponents were lowered is lost, or if a refused step takes too long.

mod agreement;
mod answers;
mod check;
mod circuit;
mod comparison;
mod families;
mod gate_steps;
mod hashed;
mod inputs;
mod inverses;
mod late_refusals;
mod lent;
mod machine;
mod many_controls;
mod pair;
mod processor;
mod program;
mod random;
mod reference;
mod refused_steps;
mod rewrite;
mod samples;
mod timing;
mod toffoli;
mod verdict;

use reference::Reference;
use std::io;
use std::process::ExitCode;

fn main() -> ExitCode {
    let work = match std::env::args().nth(1).as_deref() {
        None => measure,
        Some("--check") => check::all,
        Some(other) => {
            eprintln!("unknown argument '{other}': only --check is known");
            return ExitCode::from(2);
        }
    };
    // on one large stack, so that no timed call has to make a thread
    match gannetrope::with_stack(work) {
        Ok(true) => ExitCode::SUCCESS,
        Ok(false) => ExitCode::FAILURE,
        Err(error) => {
            eprintln!("{error}");
            ExitCode::FAILURE
        }
    }
}

/// Times everything, prints the tables and then what is wrong; gives whether nothing is.
fn measure() -> io::Result<bool> {
    println!("machine: {}\n", machine::description());
    let mut failures = Vec::new();
    measure_families(&mut failures);
    count_answers(&mut failures);
    measure_refusals(&mut failures);
    measure_gate_steps(&mut failures);
    measure_inverses(&mut failures);
    match Reference::from_environment() {
        Some(reference) => reference.compare(&mut failures)?,
        None => println!("no reference program: REFERENCE and INPUTS are not both set\n"),
    }
    match program::path().map(|program| program::measure(&program)) {
        None => println!("no verdict program"),
        Some(measured) => print_or_note(measured, &mut failures),
    }
    for failure in &failures {
        println!("FAILED {failure}");
    }
    Ok(failures.is_empty())
}

fn measure_families(failures: &mut Vec<String>) {
    println!("{}", comparison::heading());
    let cases = families::all();
    let rows = successes(cases.iter().map(comparison::measure), failures);
    println!("\n{}", comparison::summary(&rows));
}

fn count_answers(failures: &mut Vec<String>) {
    println!("what is answered\n{}", answers::heading());
    let samples = samples::all();
    let rows = successes(samples.iter().map(answers::count), failures);
    println!("{}\n", answers::summary(&rows));
}

fn measure_refusals(failures: &mut Vec<String>) {
    println!("late refusals\n{}", refused_steps::heading());
    let refusals = late_refusals::all();
    let rows = successes(refusals.iter().map(refused_steps::measure), failures);
    print_or_note(refused_steps::summary(&rows), failures);
    println!();
}

fn measure_gate_steps(failures: &mut Vec<String>) {
    println!("steps by gate\n{}", gate_steps::heading());
    for trial in gate_steps::all() {
        print_or_note(gate_steps::measure(&trial), failures);
    }
    println!();
}

fn measure_inverses(failures: &mut Vec<String>) {
    println!("inverses\n{}", inverses::heading());
    for undoing in inverses::all() {
        print_or_note(inverses::measure(&undoing), failures);
    }
    println!();
}

/// The values of what went well; the rest is noted.
fn successes<T>(results: impl Iterator<Item = Result<T, String>>, failures: &mut Vec<String>) -> Vec<T> {
    results.filter_map(|result| result.map_err(|failure| failures.push(failure)).ok()).collect()
}

fn print_or_note(line: Result<String, String>, failures: &mut Vec<String>) {
    match line {
        Ok(line) => println!("{line}"),
        Err(failure) => failures.push(failure),
    }
}
