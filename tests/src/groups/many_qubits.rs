//! Lists of seven and eight qubits, whose diagrams are large; and of up to sixteen, where the answer is known without
//! a matrix.

use gannetrope::{Node, Report, Verdict};

use crate::call;
use crate::circuits::{list, random_circuit};
use crate::dense::diagram::Diagram;
use crate::dense::entry::{ONE, ZERO};
use crate::dense::matrix::{Gate, H};
use crate::dense::miter::Miter;
use crate::dense::reader::Circuit;
use crate::dense::{Call, Outcome, Stores, finished, lengths, proportional};
use crate::random::Random;
use crate::tally::{Checked, Tally};

/// Qubits, and the gates of each list: a full matrix of them has at most 65,536 entries, so the largest stores hold it.
const LARGE: [(u32, usize); 6] = [(7, 30), (7, 60), (7, 90), (8, 50), (8, 70), (8, 110)];

/// Qubits, and the gates of a list.
const LISTS: [(u32, usize); 8] = [(7, 100), (8, 300), (9, 50), (11, 1000), (13, 200), (15, 400), (16, 300), (16, 4096)];

/// More H gates than this in each list may leave width 32.
const MOST_H: usize = 30;

pub fn run(tally: &mut Tally, seed: u64) {
    let mut random = Random::new(seed);
    for (qubits, gates) in LARGE {
        let u = with_few_h(&mut random, qubits, gates);
        let v = with_few_h(&mut random, qubits, gates);
        let name = format!("large diagram, {qubits} qubits, {gates} gates, seed {seed}");
        tally.case(&name, || check_large(&u, &v));
    }
    for (qubits, gates) in LISTS {
        let circuit = random_circuit(&mut random, qubits, gates);
        let name = format!("a list against itself, {qubits} qubits, {gates} gates, seed {seed}");
        tally.case(&name, || check_itself(&circuit));
    }
}

/// A random circuit in which the H gates past the limit have become other gates.
fn with_few_h(random: &mut Random, qubits: u32, gates: usize) -> Circuit {
    let mut circuit = random_circuit(random, qubits, gates);
    let is_h = |gate: &&mut Gate| gate.code == H;
    circuit.gates.iter_mut().filter(is_h).skip(MOST_H).for_each(|gate| gate.code = random.below(3) as u32);
    circuit
}

/// With so few H no number leaves width 32, so no step is refused.
fn check_large(u: &Circuit, v: &Circuit) -> Checked {
    let (m, p) = (u.gates.len(), v.gates.len());
    let expected = finished(&Miter::of_pair(u, v).lowered(), m + p);
    let mut schedule = proportional(m, p);
    for _ in 0..2 {
        let store = lengths(65_536, 65_536);
        let call =
            Call { list1: list(u), list2: list(v), schedule: schedule.clone(), w: 32, first: store, second: store };
        call::check(&call, 11, &expected)?;
        schedule.sort();
    }
    Ok(())
}

/// Taken in turns, a list and itself undo each other gate by gate.
fn check_itself(circuit: &Circuit) -> Checked {
    let gates = circuit.gates.len();
    let call = Call {
        list1: list(circuit),
        list2: list(circuit),
        schedule: proportional(gates, gates),
        w: 32,
        first: lengths(500, 20),
        second: lengths(500, 20),
    };
    call::check(&call, 3, &same_operator(circuit, circuit))
}

/// What two circuits come to whose matrices are alike.
pub fn same_operator(u: &Circuit, v: &Circuit) -> Outcome {
    let diagram = identity(u.qubits);
    let report = Report {
        verdict: Verdict::Equal { factor: ONE.narrow() },
        exponent: 0,
        steps: (u.gates.len() + v.gates.len()) as u32,
        nodes: diagram.nodes.len() as u32,
        values: diagram.values.len() as u32,
    };
    Outcome { report, stores: Stores::Diagram(diagram) }
}

/// Three nodes for each qubit, the last qubit's first.
fn identity(qubits: u32) -> Diagram {
    let (mut same, zero) = (0, 2);
    let mut nodes = Vec::new();
    for qubit in (0..qubits).rev() {
        let first = 2 * nodes.len() as u32 + 1;
        nodes.push(Node { level: 2 * qubit + 1, low: same, high: zero });
        nodes.push(Node { level: 2 * qubit + 1, low: zero, high: same });
        nodes.push(Node { level: 2 * qubit, low: first, high: first + 2 });
        same = first + 4;
    }
    Diagram { nodes, values: vec![ONE, ZERO] }
}
