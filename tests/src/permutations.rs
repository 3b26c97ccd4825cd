//! Circuits of X, CNOT, Toffoli and Fredkin gates: their matrices are permutations, so the verdict on them is known for
//! any number of qubits.

use gannetrope::Verdict;

use crate::call::{self, Lent};
use crate::circuits::list;
use crate::dense::entry::{Entry, ONE, ZERO};
use crate::dense::inverse::undone;
use crate::dense::matrix::{Gate, bit};
use crate::dense::miter::MOST_QUBITS;
use crate::dense::reader::Circuit;
use crate::dense::{self, Call, lengths, proportional};
use crate::tally::{Checked, alike};

/// Room for the diagrams of a few such gates.
const NODES: usize = 4096;
const VALUES: usize = 2;

const DIRT: u32 = 21;

/// The row of a column's one entry.
pub fn image(circuit: &Circuit, column: usize) -> usize {
    circuit.gates.iter().fold(column, |row, gate| moved(gate, circuit.qubits, row))
}

pub fn images(circuit: &Circuit) -> Vec<usize> {
    (0..1 << circuit.qubits).map(|column| image(circuit, column)).collect()
}

fn moved(gate: &Gate, qubits: u32, row: usize) -> usize {
    let is_1 = |&qubit: &u32| row & bit(qubits, qubit) != 0;
    let (controls, targets) = gate.controls_and_targets();
    match targets {
        _ if !controls.iter().all(is_1) => row,
        [flipped] => row ^ bit(qubits, *flipped),
        [one, other] if is_1(one) != is_1(other) => row ^ bit(qubits, *one) ^ bit(qubits, *other),
        _ => row,
    }
}

/// The place's number: bits r0 c0 r1 c1 .., most significant first.
pub fn place(row: usize, column: usize) -> usize {
    let bits = |bit: usize| (row >> bit & 1) << (2 * bit + 1) | (column >> bit & 1) << (2 * bit);
    (0..usize::BITS as usize / 2).map(bits).sum()
}

/// The verdict on two such circuits.
pub fn verdict(u: &Circuit, v: &Circuit) -> Verdict {
    let miter = images(&Circuit { qubits: u.qubits, gates: [undone(v).gates, u.gates.clone()].concat() });
    let corner = one_if(miter[0] == 0);
    let ones = miter.iter().enumerate().map(|(column, &row)| (row, column, ONE));
    let missing = miter.iter().enumerate().filter(|(column, row)| column != *row).map(|(at, _)| (at, at, ZERO));
    let forbids = |&(row, column, entry): &(usize, usize, Entry)| row != column || entry != corner;
    match ones.chain(missing).filter(forbids).min_by_key(|&(row, column, _)| place(row, column)) {
        None => Verdict::Equal { factor: corner.narrow() },
        Some((row, column, entry)) => Verdict::Different {
            row: row as u32,
            column: column as u32,
            entry: entry.narrow(),
            corner: corner.narrow(),
        },
    }
}

fn one_if(holds: bool) -> Entry {
    if holds { ONE } else { ZERO }
}

/// Judges two such circuits: the verdict, and all else by the dense program where it can.
pub fn check(u: &Circuit, v: &Circuit) -> Checked {
    let verdict = verdict(u, v);
    let schedule = proportional(u.gates.len(), v.gates.len());
    let store = lengths(NODES, VALUES);
    let call = Call { list1: list(u), list2: list(v), schedule, w: 2, first: store, second: store };
    let found = call::perform(&call, &mut Lent::for_call(&call, DIRT)).verdict;
    alike("verdict", found, verdict).map_err(|wrong| format!("{wrong}\n  {}", call::describe(&call)))?;
    if u.qubits > MOST_QUBITS {
        return Ok(());
    }
    let expected = dense::judge(&call);
    alike("dense program", expected.report.verdict, verdict)?;
    call::check(&call, DIRT, &expected)
}
