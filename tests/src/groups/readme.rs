//! README.md: its commands and programs are run, and must print what it says.

use std::fs;
use std::path::Path;

use crate::markdown::{Block, blocks, rows};
use crate::program::Program;
use crate::shell::{Folder, bash};
use crate::tally::{Checked, Tally, alike};

/// What begins a command in a block of them; the lines after it are what it prints.
const PROMPT: &str = "$ ";

/// How the head of the table of refusals begins, and the last number that it must have.
const REFUSALS: &str = "| No. |";
const LAST_REFUSAL: usize = 17;

pub fn run(tally: &mut Tally, home: &Path, library: &Path, verdict: &Program, inverse: &Path) {
    let readme = fs::read_to_string(home.join("../README.md")).expect("README.md");
    let folder = tree(home, library, verdict, inverse);
    let blocks = blocks(&readme);
    for language in ["c", "toml", "rust"] {
        tally.case(&format!("README, {language}"), || save(&folder, &blocks, language));
    }
    for block in blocks.iter().filter(|block| block.language == "console") {
        for (command, output) in commands(&block.lines) {
            tally.case(&format!("README, {command}"), || check(&folder, library, command, &output));
        }
    }
    tally.case("README, refusals", || check_refusals(&readme));
}

/// A tree like the repository's, in which the commands may write.
fn tree(home: &Path, library: &Path, verdict: &Program, inverse: &Path) -> Folder {
    let folder = Folder::with_scripts("readme", home, &["judge", "invert"]);
    folder.link("target/bin/verdict", &verdict.path);
    folder.link("target/bin/inverse", inverse);
    for name in ["examples", "include", "bindings"] {
        folder.link(name, &home.join("..").join(name));
    }
    folder.link("target/staticlib", library);
    folder
}

/// Writes the one block of a language to the file that the comment in its first line names.
fn save(folder: &Folder, blocks: &[Block], language: &str) -> Checked {
    let found: Vec<&Block> = blocks.iter().filter(|block| block.language == language).collect();
    let [block] = found[..] else {
        return Err(format!("{} blocks", found.len()));
    };
    let name = block.lines[0].split_whitespace().nth(1).ok_or("no name of a file")?;
    folder.write(name.trim_end_matches(':'), block.lines.join("\n").as_bytes());
    Ok(())
}

/// The commands of a block, each with what it prints.
fn commands<'a>(lines: &[&'a str]) -> Vec<(&'a str, String)> {
    let mut commands: Vec<(&str, String)> = Vec::new();
    for line in lines {
        match (line.strip_prefix(PROMPT), commands.last_mut()) {
            (Some(command), _) => commands.push((command, String::new())),
            (None, Some((_, output))) => *output += &format!("{line}\n"),
            (None, None) => panic!("'{line}' is printed by no command"),
        }
    }
    commands
}

fn check(folder: &Folder, library: &Path, command: &str, output: &str) -> Checked {
    let variables = [("GANNETROPE_LIB_DIR", library), ("CARGO_NET_OFFLINE", Path::new("true"))];
    bash(&folder.path, command, &variables)?.check(0, output.as_bytes(), &[])
}

/// The table has each refusal, in order.
fn check_refusals(readme: &str) -> Checked {
    let numbers: Vec<&str> = rows(readme, REFUSALS).iter().map(|cells| cells[0]).collect();
    let expected: Vec<String> = (1..=LAST_REFUSAL).map(|number| number.to_string()).collect();
    alike("numbers", numbers.join(" "), expected.join(" "))
}
