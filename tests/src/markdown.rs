//! The parts of a Markdown text that the tests read: fenced blocks and tables.

/// What stands before and after a fenced block.
const FENCE: &str = "```";

pub struct Block<'a> {
    pub language: &'a str,
    pub lines: Vec<&'a str>,
}

pub fn blocks(text: &str) -> Vec<Block<'_>> {
    let mut blocks = Vec::new();
    let mut lines = text.lines();
    while let Some(line) = lines.next() {
        if let Some(language) = line.strip_prefix(FENCE) {
            blocks.push(Block { language, lines: lines.by_ref().take_while(|line| *line != FENCE).collect() });
        }
    }
    blocks
}

/// The cells of each row of the tables whose heads begin so; no rows if there is no such table.
pub fn rows<'a>(text: &'a str, head: &str) -> Vec<Vec<&'a str>> {
    let mut rows = Vec::new();
    let mut lines = text.lines();
    while let Some(line) = lines.next() {
        if line.starts_with(head) {
            let rule = 1;
            let table = lines.by_ref().skip(rule).take_while(|line| line.starts_with('|'));
            rows.extend(table.map(|row| row.trim_matches('|').split('|').map(str::trim).collect()));
        }
    }
    rows
}
