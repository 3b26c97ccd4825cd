//! First forbidding places where the corner is 0: circuits of X and CNOT, and of a Toffoli gate for the place that they
//! do not reach.

use std::collections::{BTreeMap, HashSet};

use crate::circuits::X;
use crate::dense::diagram::row_and_column;
use crate::dense::matrix::{CNOT, Gate, TOFFOLI};
use crate::dense::reader::Circuit;
use crate::permutations::{check, image, images, place};
use crate::tally::{Tally, alike};

/// Every place of so many qubits is looked for.
const QUBITS: u32 = 3;

/// Where the circuits found are put: the number of qubits, and those that take the place of qubits 0, 1 and 2.
const SPREAD: [(u32, [u32; QUBITS as usize]); 9] = [
    (3, [0, 1, 2]),
    (4, [0, 1, 2]),
    (4, [0, 1, 3]),
    (4, [0, 2, 3]),
    (4, [1, 2, 3]),
    (16, [0, 1, 2]),
    (16, [0, 7, 15]),
    (16, [4, 9, 10]),
    (16, [13, 14, 15]),
];

pub fn run(tally: &mut Tally) {
    let found = circuits_by_place();
    for ((_, row, column), circuit) in &found {
        for (qubits, onto) in &SPREAD {
            let name = format!("place of row {row} and column {column}, onto {onto:?} of {qubits} qubits");
            let none = Circuit { qubits: *qubits, gates: Vec::new() };
            tally.case(&name, || check(&spread(circuit, *qubits, onto), &none));
        }
    }
    tally.case("places found", || alike("places", found.len(), reachable()));
}

/// Row 0 has an entry that is not zero, so no place after row 0's last can be the first that forbids.
fn reachable() -> usize {
    let last = place(0, (1 << QUBITS) - 1);
    (0..=last).map(row_and_column).filter(|(row, column)| row != column).count()
}

/// A circuit for each first place off the diagonal that one was found for: the place, its row and its column.
fn circuits_by_place() -> BTreeMap<(usize, usize, usize), Circuit> {
    let mut found = BTreeMap::new();
    for circuit in shortest_circuits().into_iter().chain([by_toffoli()]) {
        let (row, column) = first_place(&circuit);
        if image(&circuit, 0) != 0 && row != column {
            found.entry((place(row, column), row, column)).or_insert(circuit);
        }
    }
    found
}

/// A shortest circuit for each permutation that X and CNOT make.
fn shortest_circuits() -> Vec<Circuit> {
    let mut circuits = vec![Circuit { qubits: QUBITS, gates: Vec::new() }];
    let mut seen = HashSet::from([images(&circuits[0])]);
    let mut next = 0;
    while next < circuits.len() {
        for gate in gates() {
            let mut circuit = circuits[next].clone();
            circuit.gates.push(gate);
            if seen.insert(images(&circuit)) {
                circuits.push(circuit);
            }
        }
        next += 1;
    }
    circuits
}

fn gates() -> impl Iterator<Item = Gate> {
    let flips = (0..QUBITS).map(|qubit| Gate::new(X, &[qubit]));
    let pairs = (0..QUBITS).flat_map(|control| (0..QUBITS).map(move |target| (control, target)));
    let controlled = pairs.filter(|(control, target)| control != target);
    flips.chain(controlled.map(|(control, target)| Gate::new(CNOT, &[control, target])))
}

/// The row and the column of the lowest place with an entry.
fn first_place(circuit: &Circuit) -> (usize, usize) {
    let places = images(circuit).into_iter().enumerate().map(|(column, row)| (row, column));
    places.min_by_key(|&(row, column)| place(row, column)).expect("a column")
}

/// The circuit on other qubits.
fn spread(circuit: &Circuit, qubits: u32, onto: &[u32]) -> Circuit {
    let moved =
        |gate: &Gate| Gate { code: gate.code, qubits: gate.qubits.iter().map(|&qubit| onto[qubit as usize]).collect() };
    Circuit { qubits, gates: circuit.gates.iter().map(moved).collect() }
}

/// Columns 0, 1 and 3 go to rows from 4 on, and column 2 to row 3.
fn by_toffoli() -> Circuit {
    let cnot = Gate::new(CNOT, &[0, 2]);
    let toffoli = Gate::new(TOFFOLI, &[1, 2, 0]);
    Circuit { qubits: QUBITS, gates: vec![Gate::new(X, &[0]), cnot.clone(), toffoli, cnot] }
}
