//! The map of the crates in docs/ARCHITECTURE.md against crates.txt.

use std::fs;
use std::path::Path;

use crate::markdown::rows;
use crate::tally::{Tally, alike};

/// How the head of the map begins.
const HEAD: &str = "| crate | rests on |";

pub fn run(tally: &mut Tally, home: &Path) {
    let listed = listed(&read(home, "../crates.txt"));
    let mapped = mapped(&read(home, "../docs/ARCHITECTURE.md"));
    tally.case("map, rows", || alike("crates", mapped.len(), listed.len()));
    for (row, line) in mapped.iter().zip(&listed) {
        tally.case(&format!("map, {line}"), || alike("row", row, line));
    }
}

fn read(home: &Path, name: &str) -> String {
    fs::read_to_string(home.join(name)).unwrap_or_else(|error| panic!("{name}: {error}"))
}

/// What stands behind the name of a static library.
const STATIC: &str = " staticlib:";

/// The lines 'NAME: DEPENDENCIES' of crates.txt.
fn listed(crates: &str) -> Vec<String> {
    crates.lines().filter(|line| !line.starts_with('#')).map(|line| line.replace(STATIC, ":")).collect()
}

/// The rows of the map as such lines.
fn mapped(architecture: &str) -> Vec<String> {
    let line = |cells: Vec<&str>| format!("{}: {}", cells[0], cells[1]).replace('`', "").trim_end().to_string();
    rows(architecture, HEAD).into_iter().map(line).collect()
}
