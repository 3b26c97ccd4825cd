//! The circuit pairs that are timed, all made by seed.

use crate::agreement::Agreement;
use crate::circuit::{Circuit, Code, Gate, mask};
use crate::many_controls;
use crate::random::Random;
use crate::rewrite::{changed, reordered, rewritten};
use crate::toffoli;
use crate::verdict;
use gannetrope::Report;

/// A pair of lists, and what it shows.
#[derive(Clone)]
pub struct Case {
    pub family: &'static str,
    /// How the second list came about.
    pub second_is: &'static str,
    pub is_equal: bool,
    pub first: Circuit,
    pub second: Circuit,
    pub growth: Option<Growth>,
}

impl Case {
    pub fn name(&self) -> String {
        let (qubits, gates) = (self.first.qubits, self.first.gates.len());
        let (family, second_is) = (self.family, self.second_is);
        format!("{family}, {second_is}, {qubits} qubits, {gates} gates")
    }

    /// How many gates the lists have.
    pub fn gates(&self) -> String {
        format!("{}+{}", self.first.gates.len(), self.second.gates.len())
    }

    /// Whether a report is what the lists were made for.
    pub fn check_made(&self, report: &Report) -> Agreement {
        let made = if self.is_equal { "equal" } else { "different" };
        if verdict::word(report) == made { Ok(()) } else { Err(format!("{report}, but made to be {made}")) }
    }

    /// Whether a report is a refusal or what the lists were made for.
    pub fn check_unless_refused(&self, report: &Report) -> Agreement {
        if verdict::is_refused(report) { Ok(()) } else { self.check_made(report) }
    }
}

/// A case that stands for a size in the summary of growth.
#[derive(Clone, Copy, PartialEq, Eq)]
pub enum Growth {
    /// About so many nodes at the peak.
    Nodes(usize),
    /// So many gates in each list.
    Gates(usize),
}

pub fn all() -> Vec<Case> {
    let mut cases = Vec::new();
    for qubits in [4, 6, 8, 10, 12, 14, 16] {
        cases.extend(random_pairs(qubits));
    }
    for qubits in [4, 8, 12, 16] {
        cases.extend(ghz_pairs(qubits));
    }
    for qubits in [4, 8, 12, 16] {
        cases.extend(bernstein_vazirani_pairs(qubits));
    }
    for qubits in [4, 8, 12, 16] {
        cases.extend(adder_pairs(qubits));
    }
    for qubits in [4, 8, 16] {
        for gates in [256, 1024, 4096] {
            cases.extend(deep_pairs(qubits, gates));
        }
    }
    cases.extend(BLOW_UPS.map(blow_up));
    cases.extend(many_controls::all());
    cases
}

/// An equal list against the first, and that list with one changed gate.
pub fn pairs(
    family: &'static str,
    first: Circuit,
    (equal_is, equal): (&'static str, Circuit),
    random: &mut Random,
) -> [Case; 2] {
    let different = changed(&equal, random);
    let case =
        |second_is, second, is_equal| Case { family, second_is, is_equal, first: first.clone(), second, growth: None };
    [case(equal_is, equal, true), case("one changed", different, false)]
}

/// A gate of one of these codes, with as few controls as it may have.
fn random_gate(qubits: u8, codes: &[Code], random: &mut Random) -> Gate {
    let code = random.pick(codes);
    match code {
        Code::Cnot | Code::Cz => {
            let (control, target) = random.two_qubits(qubits);
            Gate::two(code, control, target)
        }
        Code::Toffoli | Code::Fredkin => masked_gate(code, qubits, code.least_controls() as usize, random),
        _ => Gate::one(code, random.qubit(qubits)),
    }
}

/// A Toffoli or Fredkin gate with so many controls.
pub fn masked_gate(code: Code, qubits: u8, controls: usize, random: &mut Random) -> Gate {
    let targets = code.targets();
    let named = random.some_qubits(qubits, controls + targets);
    let (targets, controls) = named.split_at(targets);
    let second = targets.get(1).copied();
    Gate { code, controls: mask(controls), target: targets[0], second }
}

/// A list of random gates of these codes.
pub fn random_list(qubits: u8, count: usize, codes: &[Code], random: &mut Random) -> Circuit {
    let gates = (0..count).map(|_| random_gate(qubits, codes, random)).collect();
    Circuit { qubits, gates }
}

/// An H on every qubit.
pub fn h_layer(qubits: u8) -> impl Iterator<Item = Gate> {
    (0..qubits).map(|qubit| Gate::one(Code::H, qubit))
}

/// The list after an H layer.
pub fn after_h_layer(mut circuit: Circuit) -> Circuit {
    circuit.gates.splice(..0, h_layer(circuit.qubits));
    circuit
}

/// Random Clifford+T lists, three gates in ten rewritten.
fn random_pairs(qubits: u8) -> Vec<Case> {
    let mut cases = Vec::new();
    for gates_per_qubit in [5, 10] {
        let seed = 1000 * gates_per_qubit + u64::from(qubits);
        let random = &mut Random::new(seed);
        let count = gates_per_qubit as usize * usize::from(qubits);
        let first = random_list(qubits, count, Code::UNMASKED, random);
        let equal = rewritten(&first, 30, random);
        cases.extend(pairs("random", first, ("rewritten", equal), random));
    }
    cases
}

/// The maker of a GHZ state, every gate rewritten.
fn ghz_pairs(qubits: u8) -> [Case; 2] {
    let random = &mut Random::new(200 + u64::from(qubits));
    let mut gates = vec![Gate::one(Code::H, 0)];
    gates.extend((1..qubits).map(|qubit| Gate::two(Code::Cnot, qubit - 1, qubit)));
    let first = Circuit { qubits, gates };
    let equal = rewritten(&first, 100, random);
    pairs("GHZ", first, ("rewritten", equal), random)
}

/// Bernstein-Vazirani with a random secret, against the list without the H gates that cancel, half of it rewritten.
fn bernstein_vazirani_pairs(qubits: u8) -> [Case; 2] {
    let random = &mut Random::new(300 + u64::from(qubits));
    let last = qubits - 1;
    let secret: Vec<u8> = (0..last).filter(|_| random.percent(50)).collect();
    let h = |qubit: u8| Gate::one(Code::H, qubit);
    let ask = |&qubit: &u8| Gate::two(Code::Cnot, qubit, last);

    let mut full = vec![Gate::one(Code::X, last)];
    full.extend((0..qubits).map(h));
    full.extend(secret.iter().map(ask));
    full.extend((0..last).map(h));

    let mut short = vec![Gate::one(Code::X, last), h(last)];
    short.extend(secret.iter().flat_map(|qubit| [h(*qubit), ask(qubit), h(*qubit)]));

    let circuit = |gates| Circuit { qubits, gates };
    let equal = rewritten(&circuit(short), 50, random);
    pairs("Bernstein-Vazirani", circuit(full), ("rewritten", equal), random)
}

/// A ripple-carry adder after Cuccaro: carry in, pairs of bits, carry out.
pub fn adder(qubits: u8, toffoli: fn(u8, u8, u8) -> Vec<Gate>) -> Circuit {
    let cnot = |control, target| Gate::two(Code::Cnot, control, target);
    let bits = (qubits - 2) / 2;
    // of each bit: the carry into it, and the bits of the two numbers
    let wires: Vec<(u8, u8, u8)> = (0..bits).map(|i| (2 * i, 2 * i + 1, 2 * i + 2)).collect();
    let mut gates = Vec::new();
    for &(carry, b, a) in &wires {
        gates.extend([cnot(a, b), cnot(a, carry)]);
        gates.extend(toffoli(carry, b, a));
    }
    gates.push(cnot(2 * bits, qubits - 1));
    for &(carry, b, a) in wires.iter().rev() {
        gates.extend(toffoli(carry, b, a));
        gates.extend([cnot(a, carry), cnot(carry, b)]);
    }
    Circuit { qubits, gates }
}

fn adder_pairs(qubits: u8) -> [Case; 2] {
    let random = &mut Random::new(400 + u64::from(qubits));
    let first = adder(qubits, toffoli::network);
    let equal = adder(qubits, toffoli::other_network);
    pairs("adder", first, ("networks", equal), random)
}

/// Long lists: phases, permutations and a few H gates, against another order.
fn deep_pairs(qubits: u8, count: usize) -> [Case; 2] {
    let random = &mut Random::new(500 + 10 * count as u64 + u64::from(qubits));
    let without_h: Vec<Code> = Code::UNMASKED.iter().copied().filter(|&code| code != Code::H).collect();
    let mut first = random_list(qubits, count, &without_h, random);
    for _ in 0..12 {
        let place = random.below(count);
        first.gates[place] = Gate::one(Code::H, random.qubit(qubits));
    }
    let equal = reordered(&first, random);
    let mut cases = pairs("deep", first, ("reordered", equal), random);
    cases[0].growth = Some(Growth::Gates(count));
    cases
}

/// Two unrelated Clifford lists whose miter grows to about so many nodes.
#[derive(Clone, Copy)]
struct BlowUp {
    nodes: usize,
    qubits: u8,
    seed: u64,
    gates: usize,
}

const fn blow_up_to(nodes: usize, qubits: u8, seed: u64, gates: usize) -> BlowUp {
    BlowUp { nodes, qubits, seed, gates }
}

/// Of many seeds those that stay longest just below the number of nodes; with one gate more they pass it.
const BLOW_UPS: [BlowUp; 7] = [
    blow_up_to(64, 4, 3272, 43),
    blow_up_to(256, 6, 450, 52),
    blow_up_to(1024, 8, 287, 62),
    blow_up_to(4096, 10, 3, 52),
    blow_up_to(16_384, 12, 12, 69),
    blow_up_to(65_536, 14, 11, 72),
    blow_up_to(65_536, 16, 19, 40),
];

fn blow_up(wanted: BlowUp) -> Case {
    let codes = [Code::H, Code::S, Code::Cnot, Code::Cnot];
    let list = |seed| random_list(wanted.qubits, wanted.gates, &codes, &mut Random::new(seed));
    Case {
        family: "blow-up",
        second_is: "unrelated",
        is_equal: false,
        first: list(wanted.seed),
        second: list(!wanted.seed),
        growth: Some(Growth::Nodes(wanted.nodes)),
    }
}
