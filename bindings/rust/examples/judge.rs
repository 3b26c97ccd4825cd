//! Judges a CNOT against its rewriting with a CZ, and prints the line and the miter's diagram.

use gannetrope::{Limits, Schedule, Verdict, judge};

fn main() {
    // two qubits, one gate: CNOT with control 0 and target 1
    let cnot = [2, 1, 8, 0, 1];
    // two qubits, three gates: H 1, CZ 0 1, H 1
    let rewritten = [2, 3, 3, 1, 9, 0, 1, 3, 1];

    let judged = judge(&cnot, &rewritten, Schedule::Proportional, Limits::default());
    println!("{}", judged.report());

    match judged.report().verdict {
        Verdict::Equal { factor } => println!("the same up to the factor {factor}"),
        Verdict::Different { row, column, .. } => {
            println!("different, first at row {row}, column {column}")
        }
        Verdict::Refused(refusal) => println!("not judged: {refusal}"),
    }
    for (number, node) in judged.nodes().enumerate() {
        println!("node {number}: {node:?}");
    }
    for (number, value) in judged.values().enumerate() {
        println!("value {number}: {value}");
    }
}
