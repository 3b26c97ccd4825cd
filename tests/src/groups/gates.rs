//! docs/GATES.md: its codes, inverses and matrices against the library, its order and its lines against the sources.

use std::fs;
use std::path::Path;

use gannetrope::{Refusal, inverse};

use crate::call;
use crate::circuits::write_number;
use crate::dense::entry::{Entry, ONE, ZERO};
use crate::dense::matrix::{CODES, Matrix};
use crate::dense::miter::Miter;
use crate::dense::{self, Call, lengths};
use crate::hex;
use crate::markdown::rows;
use crate::tally::{Checked, Tally, alike};

/// How the heads of the page's tables of gates begin.
const HEAD: &str = "| gate | code |";

/// The files that the last columns have lines of: the published matrix, the inverse, the data, the case.
const GATES: &str = "crates/gates/specs/Gate.antt";
const RULES: &str = "crates/gates/specs/Rule.antt";
const DECISION: &str = "crates/gates/src/lib.rt";
const FILES: [&str; 4] = [GATES, GATES, RULES, DECISION];

/// How a case begins in the decision, before its name, and what stands between the name and its data.
const CASE: &str = "Code::";
const DATA: &str = " =>";

/// Refusals, and the offsets of what they name in the list of one gate.
const UNKNOWN_CODE: u32 = 7;
const TOO_FEW_CONTROLS: u32 = 17;
const CODE_AT: u32 = 2;
const MASK_AT: u32 = 3;

/// Room for the matrix of any gate of the page.
const NODES: usize = 32;
const VALUES: usize = 4;

const DIRT: u32 = 12;

/// A row of the page.
struct Row {
    name: String,
    code: u32,
    inverse: String,
    operands: Operands,
    matrix: Vec<Vec<Entry>>,
    exponent: u32,
    /// A line's number and how it begins, for each of the files.
    lines: Vec<(usize, String)>,
}

/// What follows a gate's code: how many controls it has at least, each by its number or all in a mask, and how many targets.
struct Operands {
    controls: u32,
    masked: bool,
    targets: u32,
}

pub fn run(tally: &mut Tally, home: &Path) {
    let page = read(home, "docs/GATES.md");
    let sources = FILES.map(|file| read(home, file));
    let decision = read(home, DECISION);
    let gates: Vec<Row> = rows(&page, HEAD).iter().map(|cells| row(cells)).collect();

    tally.case("GATES, codes", || check_codes(&gates));
    tally.case("GATES, order", || check_order(&gates, &decision));
    for gate in gates.iter().filter(|gate| gate.operands.masked) {
        tally.case(&format!("GATES, {}, too few controls", gate.name), || check_too_few(gate));
    }
    for gate in &gates {
        let name = &gate.name;
        tally.case(&format!("GATES, {name}, inverse"), || check_inverse(gate));
        tally.case(&format!("GATES, {name} on the right"), || check_right(gate, &gates));
        tally.case(&format!("GATES, {name} on the left"), || check_left(gate));
        tally.case(&format!("GATES, {name}, number"), || check_number(gate, &decision));
        tally.case(&format!("GATES, {name}, names"), || check_names(gate));
        for ((file, source), line) in FILES.iter().zip(&sources).zip(&gate.lines) {
            tally.case(&format!("GATES, {name}, {file}"), || check_line(source, line));
        }
    }
}

fn read(home: &Path, name: &str) -> String {
    fs::read_to_string(home.join("..").join(name)).unwrap_or_else(|error| panic!("{name}: {error}"))
}

// ---- the page

fn row(cells: &[&str]) -> Row {
    let &[name, code, inverse, after, matrix, ref lines @ ..] = cells else { panic!("too few cells: {cells:?}") };
    let (matrix, over) = matrix.trim_start_matches("`[").split_once("]`").expect("a matrix");
    Row {
        name: name.to_string(),
        code: code.parse().expect("a code"),
        inverse: inverse.to_string(),
        operands: operands(after),
        matrix: matrix.split("; ").map(|row| row.split(' ').map(entry).collect()).collect(),
        exponent: exponent(over),
        lines: lines.iter().map(|cell| line(cell)).collect(),
    }
}

/// What stands after a matrix.
fn exponent(over: &str) -> u32 {
    match over {
        "" => 0,
        " over √2" => 1,
        _ => panic!("'{over}' follows a matrix"),
    }
}

fn operands(after: &str) -> Operands {
    let (controls, masked, targets) = match after {
        "a qubit" => (0, false, 1),
        "a control, a target" => (1, false, 1),
        "a mask of 2 or more, a target" => (2, true, 1),
        "a mask of 1 or more, two targets" => (1, true, 2),
        _ => panic!("'{after}' follows no code"),
    };
    Operands { controls, masked, targets }
}

/// 0, 1 or a power of w, with a sign or not.
fn entry(text: &str) -> Entry {
    match text.strip_prefix('−') {
        Some(positive) => -entry(positive),
        None => match text {
            "0" => ZERO,
            "1" => ONE,
            "w" => Entry::root(1),
            "w²" => Entry::root(2),
            "w⁶" => Entry::root(6),
            "w⁷" => Entry::root(7),
            _ => panic!("'{text}' is no entry"),
        },
    }
}

/// A cell with a line's number and how it begins.
fn line(cell: &str) -> (usize, String) {
    let (number, start) = cell.split_once(' ').expect("a number and a text");
    (number.parse().expect("a line's number"), start.trim_matches('`').to_string())
}

// ---- against the library

/// The page has each code once, and the next is refused.
fn check_codes(gates: &[Row]) -> Checked {
    let mut codes: Vec<u32> = gates.iter().map(|gate| gate.code).collect();
    codes.sort();
    alike("codes", format!("{codes:?}"), format!("{:?}", (0..CODES).collect::<Vec<_>>()))?;
    check_refused(&list(&[1, 1, CODES, 0]), UNKNOWN_CODE, CODE_AT)
}

fn check_too_few(gate: &Row) -> Checked {
    let fewer = Operands { controls: gate.operands.controls - 1, ..gate.operands };
    check_refused(&one_gate(&fewer, gate.code), TOO_FEW_CONTROLS, MASK_AT)
}

fn check_refused(list: &[u8], number: u32, offset: u32) -> Checked {
    let refused: Result<Vec<u8>, _> = Err(Refusal::Byte { number, list: 1, offset });
    alike("returned", format!("{:?}", inverse(list)), format!("{refused:?}"))
}

fn check_inverse(gate: &Row) -> Checked {
    let code = gate.inverse.split(' ').next().and_then(|code| code.parse().ok()).ok_or("no code of an inverse")?;
    let found = inverse(&one_gate(&gate.operands, gate.code)).map_err(|refusal| refusal.to_string())?;
    alike("inverse", hex::encode(&found), hex::encode(&one_gate(&gate.operands, code)))
}

/// A gate of list 2 comes to the right by its inverse: the miter is the matrix of the gate that the page names as such.
fn check_right(gate: &Row, gates: &[Row]) -> Checked {
    let named = |other: &&Row| format!("{} {}", other.code, other.name) == gate.inverse;
    let undone = gates.iter().find(named).ok_or_else(|| format!("no gate is '{}'", gate.inverse))?;
    check_miter(no_gate(&gate.operands), one_gate(&gate.operands, gate.code), 1, undone)
}

/// A gate of list 1 comes to the left as it is.
fn check_left(gate: &Row) -> Checked {
    check_miter(one_gate(&gate.operands, gate.code), no_gate(&gate.operands), 0, gate)
}

/// One step from the identity makes a gate's matrix: the report and every slot of the stores.
fn check_miter(list1: Vec<u8>, list2: Vec<u8>, step: u8, made: &Row) -> Checked {
    let store = lengths(NODES, VALUES);
    let call = Call { list1, list2, schedule: vec![step], w: 32, first: store, second: store };
    let miter = Miter { matrix: matrix(made), exponent: made.exponent };
    call::check(&call, DIRT, &dense::finished(&miter, 1))
}

fn qubits(operands: &Operands) -> u32 {
    operands.controls + operands.targets
}

fn no_gate(operands: &Operands) -> Vec<u8> {
    list(&[qubits(operands), 0])
}

/// The list of one gate, on as many qubits as it names, its controls before its targets.
fn one_gate(operands: &Operands, code: u32) -> Vec<u8> {
    let mut numbers = vec![qubits(operands), 1, code];
    match operands.masked {
        true => numbers.push((1 << operands.controls) - 1),
        false => numbers.extend(0..operands.controls),
    }
    numbers.extend(operands.controls..qubits(operands));
    list(&numbers)
}

fn list(numbers: &[u32]) -> Vec<u8> {
    let mut bytes = Vec::new();
    numbers.iter().for_each(|&number| write_number(&mut bytes, number));
    bytes
}

/// The gate's matrix with its controls: the identity but for the last rows and columns, where all of them are 1.
fn matrix(gate: &Row) -> Matrix {
    let size = 1 << qubits(&gate.operands);
    let before = size - gate.matrix.len();
    Matrix::from_fn(size, |row, column| match (row.checked_sub(before), column.checked_sub(before)) {
        (Some(row), Some(column)) => gate.matrix[row][column],
        _ if row == column => ONE,
        _ => ZERO,
    })
}

// ---- against the sources

/// The page's rows are the cases of the decision, in their order.
fn check_order(gates: &[Row], decision: &str) -> Checked {
    let cases: Vec<&str> = decision.lines().filter_map(|line| case_of(line.trim())).collect();
    let listed: Vec<&str> = gates.iter().map(case).collect();
    alike("cases", listed.join(" "), cases.join(" "))
}

/// The name of a gate's case.
fn case(gate: &Row) -> &str {
    gate.lines.last().and_then(|(_, start)| case_of(start)).unwrap_or_default()
}

/// The name of the case that begins so, if it is one.
fn case_of(start: &str) -> Option<&str> {
    start.strip_prefix(CASE)?.split_once(DATA).map(|(name, _)| name)
}

/// The case is named by a variant, whose number is the code.
fn check_number(gate: &Row, decision: &str) -> Checked {
    let variant = format!("    {} = {},", case(gate), gate.code);
    if decision.lines().any(|line| line == variant) { Ok(()) } else { Err(format!("no line '{variant}'")) }
}

/// The lines of definitions are those of this gate.
fn check_names(gate: &Row) -> Checked {
    let (name, lower) = (&gate.name, gate.name.to_lowercase());
    let definitions = match (gate.operands.controls, gate.operands.masked) {
        (0, _) => [format!("small {name}"), format!("inverse_kind {name}"), format!("kind_rule {name}")],
        (_, false) => [format!("small_pair {name}"), "inverse (pair k p q)".to_string(), format!("pair_rule {name}")],
        (_, true) => [format!("named_entry ({lower}"), format!("inverse ({lower}"), format!("{lower}_rule")],
    };
    let starts: Vec<&str> = gate.lines.iter().map(|(_, start)| start.as_str()).collect();
    alike("lines", starts.len(), FILES.len())?;
    // the arguments of a gate with a mask may follow
    let begins = |(start, definition): (&&str, &String)| start.split(" mask").next() == Some(definition.as_str());
    let all = starts.iter().zip(&definitions).all(begins);
    if all { Ok(()) } else { Err(format!("found {starts:?}, expected {definitions:?}")) }
}

/// The line begins so, with a whole word.
fn check_line(source: &str, (number, start): &(usize, String)) -> Checked {
    let begins = |line: &str| line.trim_start().strip_prefix(start.as_str()).is_some_and(|rest| rest.starts_with(' '));
    let lines: Vec<usize> =
        (1..).zip(source.lines()).filter(|(_, line)| begins(line)).map(|(number, _)| number).collect();
    if lines.contains(number) { Ok(()) } else { Err(format!("'{start}' begins lines {lines:?}, not {number}")) }
}
