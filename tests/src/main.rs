//! Tests of the library, its bindings and the programs against a dense-matrix program.
//!
//! With no arguments every group runs; else those named. README.md has the groups and the variables.

mod c_program;
mod call;
mod circuits;
mod dense;
mod groups;
mod hex;
mod json;
mod limited;
mod markdown;
mod on_thread;
mod permutations;
mod program;
mod random;
mod scripts;
mod shell;
mod tally;

use std::path::{Path, PathBuf};
use std::process::ExitCode;
use std::{env, time::Instant};

use program::Program;
use tally::Tally;

type Group<'a> = (&'a str, Box<dyn Fn(&mut Tally) + 'a>);

fn main() -> ExitCode {
    gannetrope::with_stack(run_groups)
}

fn run_groups() -> ExitCode {
    let home = Path::new(env!("CARGO_MANIFEST_DIR"));
    let library = path("GANNETROPE_LIB_DIR", home.join("../target/staticlib"));
    let vectors = path("GANNETROPE_VECTORS", home.join("vectors"));
    let program = Program { path: path("GANNETROPE_VERDICT", home.join("../target/bin/verdict")) };
    let inverse = path("GANNETROPE_INVERSE", home.join("../target/bin/inverse"));
    let seed = env::var("GANNETROPE_SEED").map_or(1, |seed| seed.parse().expect("a seed is a number"));
    println!("seed {seed}");

    let groups: [Group; 26] = [
        ("dense", Box::new(|tally| groups::dense_itself::run(tally, seed))),
        ("paper", Box::new(groups::paper::run)),
        ("refusals", Box::new(|tally| groups::refusals::run(tally, seed))),
        ("masks", Box::new(|tally| groups::masks::run(tally, seed))),
        ("damage", Box::new(|tally| groups::damage::run(tally, seed))),
        ("random", Box::new(|tally| groups::random_pairs::run(tally, seed))),
        ("answer", Box::new(|tally| groups::one_answer::run(tally, seed))),
        ("widths", Box::new(groups::widths::run)),
        ("lowering", Box::new(|tally| groups::lowering::run(tally, seed))),
        ("places", Box::new(groups::places::run)),
        ("controls", Box::new(|tally| groups::controls::run(tally, seed))),
        ("qubits", Box::new(|tally| groups::many_qubits::run(tally, seed))),
        ("inverses", Box::new(|tally| groups::inverses::run(tally, seed))),
        ("slow", Box::new(|tally| groups::slow::run(tally, home, &library, &vectors, &program, seed))),
        ("stack", Box::new(|tally| groups::stack::run(tally, home, &library, &program, seed))),
        ("binding", Box::new(|tally| groups::binding::run(tally, seed))),
        ("header", Box::new(|tally| groups::header::run(tally, home, &library))),
        ("documentation", Box::new(|tally| groups::documentation::run(tally, home))),
        ("vectors", Box::new(|tally| groups::vectors::run(tally, &vectors, &program))),
        ("verdict", Box::new(|tally| groups::verdict::run(tally, &program, seed))),
        ("judge", Box::new(|tally| groups::judge::run(tally, home, &program, seed))),
        ("invert", Box::new(|tally| groups::invert::run(tally, home, &inverse, seed))),
        ("examples", Box::new(|tally| groups::examples::run(tally, home, seed))),
        ("readme", Box::new(|tally| groups::readme::run(tally, home, &library, &program, &inverse))),
        ("map", Box::new(|tally| groups::map::run(tally, home))),
        ("gates", Box::new(|tally| groups::gates::run(tally, home))),
    ];
    run(&groups)
}

fn run(groups: &[Group]) -> ExitCode {
    let wanted: Vec<String> = env::args().skip(1).collect();
    let mut tally = Tally::default();
    for (name, group) in groups {
        if wanted.is_empty() || wanted.iter().any(|word| word == name) {
            let start = Instant::now();
            tally.group(name, group);
            println!("  in {:.1} s", start.elapsed().as_secs_f64());
        }
    }
    if tally.close() { ExitCode::SUCCESS } else { ExitCode::FAILURE }
}

fn path(variable: &str, unless_set: PathBuf) -> PathBuf {
    env::var_os(variable).map_or(unless_set, PathBuf::from)
}
