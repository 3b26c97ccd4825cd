//! Lists with many H, whose exponent is lowered again and again: random ones, and long ones with known answers.

use gannetrope::{MOST_GATES, Node, Report, Verdict};

use crate::call;
use crate::circuits::{list, with_many_h};
use crate::dense::diagram::Diagram;
use crate::dense::entry::ONE;
use crate::dense::matrix::{Gate, H};
use crate::dense::reader::Circuit;
use crate::dense::{Call, Outcome, Stores, lengths, proportional};
use crate::groups::many_qubits::same_operator;
use crate::groups::random_pairs::{check_pair, pair_of};
use crate::random::Random;
use crate::tally::{Checked, Tally};

/// How many random pairs of each number of qubits, and the most gates of their lists.
const PAIRS: [(u64, usize); 5] = [(120, 160), (120, 160), (80, 120), (40, 80), (20, 60)];

/// What keeps the seeds apart from those of other groups, and of each number of qubits.
const FIRST_SEED: u64 = 700_000;
const SEEDS: u64 = 1000;

/// The most gates of a list, the most qubits, and the most layers of H on all of those.
const MOST: usize = MOST_GATES as usize;
const QUBITS: u32 = 16;
const MOST_LAYERS: usize = MOST / QUBITS as usize;

/// Qubits, and the numbers of H on each of them in list 1 and in list 2.
const LAYERS: [(u32, usize, usize); 8] = [
    (1, MOST, 0),
    (1, 0, MOST),
    (1, MOST - 1, MOST - 1),
    (1, MOST - 1, MOST),
    (1, MOST, MOST - 1),
    (QUBITS, MOST_LAYERS, 0),
    (QUBITS, MOST_LAYERS, MOST_LAYERS),
    (QUBITS, MOST_LAYERS - 1, 0),
];

/// The verdict program's settings.
const WIDTH: u32 = 32;
const NODES: usize = 4096;
const VALUES: usize = 1024;

/// What the earlier contents of the stores are made from.
const DIRT: u32 = 4;

pub fn run(tally: &mut Tally, seed: u64) {
    for (qubits, (pairs, most_gates)) in (1..).zip(PAIRS) {
        for pair in 0..pairs {
            let pair_seed = seed + FIRST_SEED + SEEDS * u64::from(qubits) + pair;
            let name = format!("random pair with many H, {qubits} qubits, seed {pair_seed}");
            tally.case(&name, || check_random(&mut Random::new(pair_seed), qubits, most_gates));
        }
    }
    for (qubits, first, second) in LAYERS {
        let name = format!("{first} against {second} H on each of {qubits} qubits");
        tally.case(&name, || check_layers(qubits, first, second));
    }
}

fn check_random(random: &mut Random, qubits: u32, most_gates: usize) -> Checked {
    let (u, v) = pair_of(random, |random| with_many_h(random, qubits, most_gates));
    check_pair(random, &u, &v)
}

/// An even number of H on a qubit is nothing, an odd number is one H.
fn check_layers(qubits: u32, first: usize, second: usize) -> Checked {
    let on_each = |_| (0..qubits).map(|qubit| Gate::new(H, &[qubit]));
    let circuit = |times| Circuit { qubits, gates: (0..times).flat_map(on_each).collect() };
    let [u, v] = [first, second].map(circuit);
    let expected = if (first + second).is_multiple_of(2) { same_operator(&u, &v) } else { one_h_on_each(&u, &v) };
    let store = lengths(NODES, VALUES);
    let schedule = proportional(u.gates.len(), v.gates.len());
    let call = Call { list1: list(&u), list2: list(&v), schedule, w: WIDTH, first: store, second: store };
    call::check(&call, DIRT, &expected)
}

/// What two circuits come to that differ by one H on each qubit: entries of 1 and −1 alone.
fn one_h_on_each(u: &Circuit, v: &Circuit) -> Outcome {
    let diagram = signs(u.qubits);
    let one = ONE.narrow();
    let report = Report {
        verdict: Verdict::Different { row: 0, column: 1, entry: one, corner: one },
        exponent: u.qubits,
        steps: (u.gates.len() + v.gates.len()) as u32,
        nodes: diagram.nodes.len() as u32,
        values: diagram.values.len() as u32,
    };
    Outcome { report, stores: Stores::Diagram(diagram) }
}

/// Two nodes for each qubit and two for its negative, the last qubit's first. Where a row's bit is 0 the part below comes
/// as it is, where it is 1 with a sign that is the column's bit.
fn signs(qubits: u32) -> Diagram {
    let (mut plus, mut minus) = (0, 2);
    let mut nodes = Vec::new();
    for qubit in (0..qubits).rev() {
        let mut add = |same, negative| {
            let signed = 2 * nodes.len() as u32 + 1;
            nodes.push(Node { level: 2 * qubit + 1, low: same, high: negative });
            nodes.push(Node { level: 2 * qubit, low: same, high: signed });
            signed + 2
        };
        (plus, minus) = (add(plus, minus), add(minus, plus));
    }
    // no node leads to the negative of qubit 0
    nodes.truncate(nodes.len() - 2);
    Diagram { nodes, values: vec![ONE, -ONE] }
}
