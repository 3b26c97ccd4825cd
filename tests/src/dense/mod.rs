//! The dense-matrix program: it judges pairs of lists by the definitions alone, on full matrices of up to six qubits.
//! It shares no code with what it tests, only the types of a report.

pub mod diagram;
pub mod entry;
pub mod inverse;
pub mod matrix;
pub mod miter;
pub mod reader;

use gannetrope::{Refusal, Report};

use diagram::{Diagram, Reduced};
use miter::{Miter, Run};
use reader::{Circuit, read_list, read_number};

/// The lengths of the seven columns of a store: level, low, high, a, b, c, d.
pub type Lengths = [usize; 7];

/// What a call is given, but for what its stores hold.
#[derive(Clone, Debug)]
pub struct Call {
    pub list1: Vec<u8>,
    pub list2: Vec<u8>,
    pub schedule: Vec<u8>,
    pub w: u32,
    pub first: Lengths,
    pub second: Lengths,
}

/// What a call must leave in the stores.
#[derive(Clone, Debug, PartialEq, Eq)]
pub enum Stores {
    Unchanged,
    Zero,
    Diagram(Diagram),
}

/// What a call must come to.
#[derive(Clone, Debug, PartialEq, Eq)]
pub struct Outcome {
    pub report: Report,
    pub stores: Stores,
}

/// The columns of a store of N node slots and L value slots.
pub fn lengths(nodes: usize, values: usize) -> Lengths {
    [nodes, nodes, nodes, values, values, values, values]
}

/// Judges a call: every check in the paper's order.
pub fn judge(call: &Call) -> Outcome {
    match checked(call) {
        Err(refusal) => Outcome { report: Report::refused(refusal), stores: Stores::Unchanged },
        Ok((u, v)) => outcome(&Run::of(&u, &v, &call.schedule), call.w, call.first[0], call.first[3]),
    }
}

/// The refusals 1 to 12 and 17.
fn checked(call: &Call) -> Result<(Circuit, Circuit), Refusal> {
    if !(2..=32).contains(&call.w) {
        return Err(Refusal::Call { number: 1 });
    }
    if !lengths_fit(&call.first, &call.second) {
        return Err(Refusal::Call { number: 2 });
    }
    let u = list(&call.list1, 1)?;
    let v = list(&call.list2, 2)?;
    if u.qubits != v.qubits {
        return Err(Refusal::Call { number: 11 });
    }
    if !schedule_fits(&call.schedule, u.gates.len(), v.gates.len()) {
        return Err(Refusal::Call { number: 12 });
    }
    Ok((u, v))
}

fn lengths_fit(first: &Lengths, second: &Lengths) -> bool {
    let (nodes, values) = (first[0], first[3]);
    nodes <= 65_536
        && (1..=65_536).contains(&values)
        && *first == lengths(nodes, values)
        && *second == lengths(nodes, values)
}

fn list(bytes: &[u8], list: u32) -> Result<Circuit, Refusal> {
    read_list(bytes).map_err(|fault| Refusal::Byte { number: fault.number, list, offset: fault.offset as u32 })
}

fn schedule_fits(schedule: &[u8], m: usize, p: usize) -> bool {
    let count = |side| schedule.iter().filter(|&&byte| byte == side).count();
    count(0) == m && count(1) == p && schedule.len() == m + p
}

/// What a run comes to at a width and store sizes: the refusals 13 and 14, or the verdict.
pub fn outcome(run: &Run, w: u32, nodes: usize, values: usize) -> Outcome {
    for (index, needs) in run.needs.iter().enumerate() {
        let refuse = |number| Outcome {
            report: Report::refused(Refusal::Step { number, steps: index.saturating_sub(1) as u32 }),
            stores: Stores::Zero,
        };
        if needs.width > w {
            return refuse(13);
        }
        if needs.nodes > nodes || needs.values > values {
            return refuse(14);
        }
    }
    finished(&run.last, run.needs.len() - 1)
}

/// What a run comes to that is never refused.
pub fn finished(miter: &Miter, steps: usize) -> Outcome {
    let diagram = Reduced::of(&miter.matrix).numbered();
    let report = Report {
        verdict: miter.verdict(),
        exponent: miter.exponent,
        steps: steps as u32,
        nodes: diagram.nodes.len() as u32,
        values: diagram.values.len() as u32,
    };
    Outcome { report, stores: Stores::Diagram(diagram) }
}

/// The proportional schedule.
pub fn proportional(m: usize, p: usize) -> Vec<u8> {
    let (mut i, mut j) = (0, 0);
    let mut schedule = Vec::new();
    while i < m || j < p {
        if i < m && i * p <= j * m {
            schedule.push(0);
            i += 1;
        } else {
            schedule.push(1);
            j += 1;
        }
    }
    schedule
}

/// The most bytes that the verdict program reads.
pub const MOST_READ: usize = 57_344;

/// The verdict program's line for an input, with its line feed.
pub fn verdict_line(input: &[u8]) -> String {
    let report = match split(&input[..input.len().min(MOST_READ)]) {
        Err(number) => Report::refused(Refusal::Byte { number, list: 0, offset: 0 }),
        Ok((list1, list2)) => judge(&program_call(list1, list2)).report,
    };
    format!("{report}\n")
}

/// The two lists of an input; refused 3 or 4.
pub fn split(input: &[u8]) -> Result<(&[u8], &[u8]), u32> {
    let (length, bytes) = read_number(input)?;
    input[bytes..].split_at_checked(length as usize).ok_or(3)
}

/// The call that the verdict program makes.
fn program_call(list1: &[u8], list2: &[u8]) -> Call {
    let gates = |list| read_list(list).map_or(0, |circuit| circuit.gates.len());
    Call {
        list1: list1.to_vec(),
        list2: list2.to_vec(),
        schedule: proportional(gates(list1), gates(list2)),
        w: 32,
        first: lengths(4096, 1024),
        second: lengths(4096, 1024),
    }
}
