//! The C header: a program in C that includes it is compiled, linked and run.

use std::path::Path;
use std::process::Command;

use crate::c_program::CProgram;
use crate::tally::{Checked, Tally, alike};

pub fn run(tally: &mut Tally, home: &Path, library: &Path) {
    let compiled = CProgram::compile(home, library, "interface");
    tally.case("header compiles", || compiled.as_ref().map(drop).map_err(String::clone));
    tally.case("header, calls", || calls(home, &compiled?));
}

fn calls(home: &Path, program: &CProgram) -> Checked {
    let expected = std::fs::read_to_string(home.join("c/interface.expected")).map_err(|error| error.to_string())?;
    let output = Command::new(program.path()).output().map_err(|error| error.to_string())?;
    alike("printed", String::from_utf8_lossy(&output.stdout).into_owned(), expected)
}
