//! The binding's example and the examples in its documentation.

use std::path::Path;
use std::process::{Command, Output};

use crate::tally::{Checked, Tally, alike};

pub fn run(tally: &mut Tally, home: &Path) {
    let crate_directory = home.join("../bindings/rust");
    tally.case("example judge", || example(&crate_directory));
    tally.case("examples in the documentation", || in_documentation(&crate_directory));
}

/// The example judges circuit 7.
fn example(crate_directory: &Path) -> Checked {
    let output = cargo(crate_directory, &["run", "--release", "--offline", "--quiet", "--example", "judge"])?;
    let printed = String::from_utf8_lossy(&output.stdout);
    let line = "equal factor 0 0 0 1 exponent 0 steps 4 nodes 6 values 2";
    alike("first line", printed.lines().next().unwrap_or_default(), line)
}

fn in_documentation(crate_directory: &Path) -> Checked {
    cargo(crate_directory, &["test", "--release", "--offline", "--quiet", "--doc"]).map(drop)
}

fn cargo(directory: &Path, words: &[&str]) -> Result<Output, String> {
    let output = Command::new("cargo").args(words).current_dir(directory).output();
    let output = output.map_err(|error| format!("cargo: {error}"))?;
    if output.status.success() { Ok(output) } else { Err(String::from_utf8_lossy(&output.stderr).into_owned()) }
}
