//! Circuits to judge: written as lists, made at random, rewritten.

use gannetrope::MOST_GATES;

use crate::dense::matrix::{CNOT, CODES, CZ, FREDKIN, Gate, H, TOFFOLI, targets};
use crate::dense::reader::{Circuit, LEAST_OF_FREDKIN, LEAST_OF_TOFFOLI};
use crate::random::Random;

pub const X: u32 = 0;
pub const Y: u32 = 1;
pub const Z: u32 = 2;
pub const S: u32 = 4;
pub const S_INVERSE: u32 = 5;
pub const T: u32 = 6;
pub const T_INVERSE: u32 = 7;

/// The codes of gates on one qubit, and on one or two.
const ON_ONE_QUBIT: u32 = 8;
const ON_TWO_QUBITS: u32 = 10;

/// The circuit of these gates on one qubit.
pub fn on_one_qubit(codes: &[u32]) -> Circuit {
    Circuit { qubits: 1, gates: codes.iter().map(|&code| Gate::new(code, &[0])).collect() }
}

/// The circuit as a list.
pub fn list(circuit: &Circuit) -> Vec<u8> {
    let mut bytes = Vec::new();
    write_number(&mut bytes, circuit.qubits);
    write_number(&mut bytes, circuit.gates.len() as u32);
    for gate in &circuit.gates {
        numbers(gate).into_iter().for_each(|number| write_number(&mut bytes, number));
    }
    bytes
}

/// As many gates as there may be, each of six bytes: no list is longer than this one.
pub fn longest() -> Circuit {
    let gate = Gate::controlled(FREDKIN, &[13, 14], &[15, 0]);
    Circuit { qubits: 16, gates: vec![gate; MOST_GATES as usize] }
}

/// What a list has for a gate: its code, then its qubits, or a mask of its controls and its targets.
fn numbers(gate: &Gate) -> Vec<u32> {
    if gate.code < TOFFOLI {
        return [&[gate.code], &gate.qubits[..]].concat();
    }
    let (controls, targets) = gate.controls_and_targets();
    [&[gate.code, mask(controls)], targets].concat()
}

/// Bit q is set for qubit q.
fn mask(controls: &[u32]) -> u32 {
    controls.iter().map(|control| 1 << control).sum()
}

/// Groups of seven bits, the lowest first.
pub fn write_number(bytes: &mut Vec<u8>, mut number: u32) {
    while number > 127 {
        bytes.push(number as u8 | 128);
        number >>= 7;
    }
    bytes.push(number as u8);
}

/// The verdict program's input for two lists.
pub fn program_input(list1: &[u8], list2: &[u8]) -> Vec<u8> {
    let mut input = Vec::new();
    write_number(&mut input, list1.len() as u32);
    input.extend_from_slice(list1);
    input.extend_from_slice(list2);
    input
}

pub fn random_circuit(random: &mut Random, qubits: u32, gates: usize) -> Circuit {
    Circuit { qubits, gates: (0..gates).map(|_| random_gate(random, qubits)).collect() }
}

/// A random circuit of at most so many gates, about half of them H.
pub fn with_many_h(random: &mut Random, qubits: u32, most_gates: usize) -> Circuit {
    let gate = |random: &mut Random| match random.below(2) {
        0 => random_gate_of(random, H, qubits),
        _ => random_gate(random, qubits),
    };
    let gates = random.below(most_gates + 1);
    Circuit { qubits, gates: (0..gates).map(|_| gate(random)).collect() }
}

pub fn random_gate(random: &mut Random, qubits: u32) -> Gate {
    let codes = match qubits {
        1 => ON_ONE_QUBIT,
        2 => ON_TWO_QUBITS,
        _ => CODES,
    };
    let code = random.below(codes as usize) as u32;
    random_gate_of(random, code, qubits)
}

/// A gate of this code, on any qubits in any order, with any number of controls that it may have.
pub fn random_gate_of(random: &mut Random, code: u32, qubits: u32) -> Gate {
    let mut others: Vec<u32> = (0..qubits).collect();
    random.shuffle(&mut others);
    let targets = others.split_off(others.len() - targets(code));
    let controls = match code {
        TOFFOLI => random.between(LEAST_OF_TOFFOLI, others.len()),
        FREDKIN => random.between(LEAST_OF_FREDKIN, others.len()),
        CNOT | CZ => 1,
        _ => 0,
    };
    Gate::controlled(code, &others[..controls], &targets)
}

/// Another circuit for the same operator up to a factor.
pub fn rewritten(random: &mut Random, circuit: &Circuit, times: usize) -> Circuit {
    let mut gates = circuit.gates.clone();
    for _ in 0..times {
        match random.below(4) {
            0 => insert_undone(random, &mut gates, circuit.qubits),
            1 => insert_phase(random, &mut gates, circuit.qubits),
            2 => swap_apart(random, &mut gates),
            _ => replace(random, &mut gates),
        }
    }
    Circuit { qubits: circuit.qubits, gates }
}

/// The circuit with one gate put in, taken out or changed.
pub fn spoiled(random: &mut Random, circuit: &Circuit) -> Circuit {
    let mut gates = circuit.gates.clone();
    let place = random.below(gates.len() + 1);
    let gate = random_gate(random, circuit.qubits);
    match random.below(3) {
        0 if place < gates.len() => gates[place] = gate,
        1 if place < gates.len() => drop(gates.remove(place)),
        _ => gates.insert(place, gate),
    }
    Circuit { qubits: circuit.qubits, gates }
}

fn insert(gates: &mut Vec<Gate>, place: usize, word: impl IntoIterator<Item = Gate>) {
    gates.splice(place..place, word);
}

/// A gate and what undoes it.
fn insert_undone(random: &mut Random, gates: &mut Vec<Gate>, qubits: u32) {
    let gate = random_gate(random, qubits);
    let undone = gate.inverse();
    insert(gates, random.below(gates.len() + 1), [gate, undone]);
}

/// A word that is a number: X Z X Z is −1, X S X S is i, X T X T is w8, X S† X S† is −i.
fn insert_phase(random: &mut Random, gates: &mut Vec<Gate>, qubits: u32) {
    let qubit = random.below(qubits as usize) as u32;
    let phase = *random.pick(&[Z, S, T, S_INVERSE]);
    let word = [X, phase, X, phase].map(|code| Gate::new(code, &[qubit]));
    insert(gates, random.below(gates.len() + 1), word);
}

/// Two neighbours that name no common qubit change places.
fn swap_apart(random: &mut Random, gates: &mut [Gate]) {
    if gates.len() < 2 {
        return;
    }
    let place = random.below(gates.len() - 1);
    let apart = gates[place].qubits.iter().all(|qubit| !gates[place + 1].qubits.contains(qubit));
    if apart {
        gates.swap(place, place + 1);
    }
}

/// A gate by others that make it.
fn replace(random: &mut Random, gates: &mut Vec<Gate>) {
    if gates.is_empty() {
        return;
    }
    let place = random.below(gates.len());
    let word = made_of(&gates[place]);
    gates.splice(place..=place, word);
}

fn made_of(gate: &Gate) -> Vec<Gate> {
    let on = |code, qubit| Gate::new(code, &[qubit]);
    match (gate.code, &gate.qubits[..]) {
        (X, &[q]) => vec![on(H, q), on(Z, q), on(H, q)],
        (Y, &[q]) => vec![on(Z, q), on(X, q)],
        (Z, &[q]) => vec![on(S, q), on(S, q)],
        (S, &[q]) => vec![on(T, q), on(T, q)],
        (S_INVERSE, &[q]) => vec![on(Z, q), on(S, q)],
        (T, &[q]) => vec![on(S, q), on(T_INVERSE, q)],
        (T_INVERSE, &[q]) => vec![on(S_INVERSE, q), on(T, q)],
        (CNOT, &[control, target]) => vec![on(H, target), Gate::new(CZ, &[control, target]), on(H, target)],
        (CZ, &[control, target]) => vec![Gate::new(CZ, &[target, control])],
        (TOFFOLI, &[one, other, target]) => toffoli_network(one, other, target),
        (TOFFOLI, &[control, ref others @ .., target]) => {
            let turned = Gate::controlled(TOFFOLI, &[others, &[target]].concat(), &[control]);
            vec![on(H, target), on(H, control), turned, on(H, control), on(H, target)]
        }
        (FREDKIN, &[ref controls @ .., one, other]) => {
            let cnot = Gate::new(CNOT, &[other, one]);
            let flipped = Gate::controlled(TOFFOLI, &[controls, &[one]].concat(), &[other]);
            vec![cnot.clone(), flipped, cnot]
        }
        _ => vec![gate.clone()],
    }
}

/// A Toffoli gate of two controls by Clifford+T gates.
pub fn toffoli_network(one: u32, other: u32, target: u32) -> Vec<Gate> {
    let on = |code, qubit| Gate::new(code, &[qubit]);
    let cnot = |control, target| Gate::new(CNOT, &[control, target]);
    vec![
        on(H, target),
        cnot(other, target),
        on(T_INVERSE, target),
        cnot(one, target),
        on(T, target),
        cnot(other, target),
        on(T_INVERSE, target),
        cnot(one, target),
        on(T, other),
        on(T, target),
        on(H, target),
        cnot(one, other),
        on(T, one),
        on(T_INVERSE, other),
        cnot(one, other),
    ]
}
