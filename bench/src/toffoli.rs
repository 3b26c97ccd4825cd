//! Toffoli and Fredkin gates made of other gates.

use crate::circuit::{Circuit, Code, Gate, bit};

/// How many controls the networks have.
const NETWORK_CONTROLS: u32 = 2;

/// A Toffoli gate with two controls, by its code.
pub fn by_code(a: u8, b: u8, t: u8) -> Vec<Gate> {
    vec![Gate::toffoli(bit(a) | bit(b), t)]
}

/// The Clifford+T network of the same gate.
pub fn network(a: u8, b: u8, t: u8) -> Vec<Gate> {
    let cnot = |control, target| Gate::two(Code::Cnot, control, target);
    vec![
        Gate::one(Code::H, t),
        cnot(b, t),
        Gate::one(Code::Tdg, t),
        cnot(a, t),
        Gate::one(Code::T, t),
        cnot(b, t),
        Gate::one(Code::Tdg, t),
        cnot(a, t),
        Gate::one(Code::T, b),
        Gate::one(Code::T, t),
        Gate::one(Code::H, t),
        cnot(a, b),
        Gate::one(Code::T, a),
        Gate::one(Code::Tdg, b),
        cnot(a, b),
    ]
}

/// Another network of it: it is symmetric in its controls and undoes itself.
pub fn other_network(a: u8, b: u8, t: u8) -> Vec<Gate> {
    crate::rewrite::inverted(&network(b, a, t))
}

/// The list with each Toffoli gate, of two controls, by a network.
pub fn by_networks(circuit: &Circuit, network: fn(u8, u8, u8) -> Vec<Gate>) -> Circuit {
    let expanded = |&gate: &Gate| match gate.code {
        Code::Toffoli => {
            let (a, b) = two_controls(gate);
            network(a, b, gate.target)
        }
        _ => vec![gate],
    };
    Circuit { qubits: circuit.qubits, gates: circuit.gates.iter().flat_map(expanded).collect() }
}

fn two_controls(gate: Gate) -> (u8, u8) {
    (gate.control(), without_first_control(gate).control())
}

/// Lists that are equal to a Toffoli gate; the first adds no H.
pub fn toffoli_templates(gate: Gate) -> Vec<Vec<Gate>> {
    let mut templates = vec![split_by_control(gate)];
    if gate.controls.count_ones() == NETWORK_CONTROLS {
        let (a, b) = two_controls(gate);
        templates.extend([network(a, b, gate.target), other_network(a, b, gate.target)]);
    }
    templates
}

/// The gate without its first control, and taken back where that control is 0.
fn split_by_control(gate: Gate) -> Vec<Gate> {
    let x = Gate::one(Code::X, gate.control());
    vec![without_first_control(gate), x, gate, x]
}

fn without_first_control(gate: Gate) -> Gate {
    let controls = gate.controls & !bit(gate.control());
    let code = if controls.is_power_of_two() { Code::Cnot } else { Code::Toffoli };
    Gate { code, controls, ..gate }
}

/// Lists that are equal to a Fredkin gate on these targets: a Toffoli gate between two CNOTs, by either target.
pub fn fredkin_templates(gate: Gate, (p, q): (u8, u8)) -> Vec<Vec<Gate>> {
    let through = |p: u8, q: u8| {
        let cnot = Gate::two(Code::Cnot, q, p);
        vec![cnot, Gate::toffoli(gate.controls | bit(p), q), cnot]
    };
    vec![through(p, q), through(q, p), vec![Gate::fredkin(gate.controls, (q, p))]]
}
