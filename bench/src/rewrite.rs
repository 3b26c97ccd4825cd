//! Lists turned into other lists: equal ones by templates or by order, different ones by one changed gate.

use crate::circuit::{Circuit, Code, Gate};
use crate::random::Random;
use crate::toffoli::{fredkin_templates, toffoli_templates};

/// With so many H gates in both lists together, every number of a miter lies within 32 bits even if no exponent is
/// lowered.
pub const MOST_H: usize = 61;

/// Each gate by an equal template with the given chance, as far as `MOST_H` allows.
pub fn rewritten(circuit: &Circuit, percent: usize, random: &mut Random) -> Circuit {
    let spare_h = MOST_H.saturating_sub(2 * circuit.count(Code::H));
    rewritten_within(spare_h, circuit, percent, random)
}

/// Each gate by an equal template with the given chance, with any number of H gates.
pub fn rewritten_freely(circuit: &Circuit, percent: usize, random: &mut Random) -> Circuit {
    rewritten_within(usize::MAX, circuit, percent, random)
}

/// Each gate by an equal template with the given chance, as far as the H gates that may be added allow.
fn rewritten_within(mut spare_h: usize, circuit: &Circuit, percent: usize, random: &mut Random) -> Circuit {
    let mut gates = Vec::new();
    for &gate in &circuit.gates {
        if !random.percent(percent) {
            gates.push(gate);
            continue;
        }
        let choices: Vec<Vec<Gate>> =
            templates(gate).into_iter().filter(|template| added_h(gate, template) <= spare_h).collect();
        let template = &choices[random.below(choices.len())];
        spare_h -= added_h(gate, template);
        gates.extend(template);
    }
    Circuit { qubits: circuit.qubits, gates }
}

fn added_h(gate: Gate, template: &[Gate]) -> usize {
    let in_template = template.iter().filter(|gate| gate.code == Code::H).count();
    in_template - usize::from(gate.code == Code::H)
}

/// Lists that are equal to the gate up to a factor; at least one adds no H.
fn templates(gate: Gate) -> Vec<Vec<Gate>> {
    let q = gate.target;
    let all = |codes: &[Code]| codes.iter().map(|&code| Gate::one(code, q)).collect();
    match gate.code {
        Code::X => vec![all(&[Code::Z, Code::X, Code::Z]), all(&[Code::H, Code::Z, Code::H])],
        Code::Y => vec![all(&[Code::S, Code::X, Code::Sdg]), all(&[Code::Z, Code::X])],
        Code::Z => vec![all(&[Code::S, Code::S])],
        Code::H => vec![all(&[Code::X, Code::H, Code::Z])],
        Code::S => vec![all(&[Code::T, Code::T]), all(&[Code::Z, Code::Sdg])],
        Code::Sdg => vec![all(&[Code::Tdg, Code::Tdg]), all(&[Code::Z, Code::S])],
        Code::T => vec![all(&[Code::S, Code::Tdg])],
        Code::Tdg => vec![all(&[Code::Sdg, Code::T])],
        Code::Cnot => cnot_templates(gate.control(), q),
        Code::Cz => cz_templates(gate.control(), q),
        Code::Toffoli => toffoli_templates(gate),
        Code::Fredkin => fredkin_templates(gate, (q, second_target(gate))),
    }
}

fn cnot_templates(c: u8, t: u8) -> Vec<Vec<Gate>> {
    let (h_c, h_t) = (Gate::one(Code::H, c), Gate::one(Code::H, t));
    let cnot = Gate::two(Code::Cnot, c, t);
    vec![
        vec![cnot, cnot, cnot],
        vec![Gate::one(Code::S, c), cnot, Gate::one(Code::Sdg, c)],
        vec![h_t, Gate::two(Code::Cz, c, t), h_t],
        vec![h_c, h_t, Gate::two(Code::Cnot, t, c), h_c, h_t],
    ]
}

fn cz_templates(c: u8, t: u8) -> Vec<Vec<Gate>> {
    let h_t = Gate::one(Code::H, t);
    let cnot = Gate::two(Code::Cnot, c, t);
    vec![
        vec![Gate::two(Code::Cz, t, c)],
        vec![h_t, cnot, h_t],
        vec![Gate::one(Code::S, c), Gate::one(Code::S, t), cnot, Gate::one(Code::Sdg, t), cnot],
    ]
}

/// An equal list of the same length: neighbours that share no qubit change places, CZ gates their two qubits.
pub fn reordered(circuit: &Circuit, random: &mut Random) -> Circuit {
    let mut gates = circuit.gates.clone();
    for i in 1..gates.len() {
        if gates[i - 1].is_apart_from(gates[i]) && random.percent(50) {
            gates.swap(i - 1, i);
        }
    }
    for gate in &mut gates {
        if gate.code == Code::Cz {
            *gate = Gate::two(Code::Cz, gate.target, gate.control());
        }
    }
    Circuit { qubits: circuit.qubits, gates }
}

/// The list with one gate changed. No two codes have proportional matrices, so it is never equal.
pub fn changed(circuit: &Circuit, random: &mut Random) -> Circuit {
    let mut gates = circuit.gates.clone();
    let gate = &mut gates[random.below(circuit.gates.len())];
    *gate = other(*gate);
    Circuit { qubits: circuit.qubits, gates }
}

/// A gate with another code on the same qubits or some of them.
fn other(gate: Gate) -> Gate {
    let code = match gate.code {
        Code::X => Code::Y,
        Code::Y => Code::Z,
        Code::Z => Code::S,
        Code::H => Code::X,
        Code::S => Code::T,
        Code::Sdg => Code::S,
        Code::T => Code::Tdg,
        Code::Tdg => Code::Z,
        Code::Cnot => Code::Cz,
        Code::Cz => Code::Cnot,
        Code::Toffoli => return Gate::two(Code::Cnot, gate.control(), gate.target),
        Code::Fredkin => return Gate::two(Code::Cnot, second_target(gate), gate.target),
    };
    Gate { code, ..gate }
}

fn second_target(fredkin: Gate) -> u8 {
    fredkin.second.expect("a second target")
}

/// The list that undoes this one.
pub fn inverted(gates: &[Gate]) -> Vec<Gate> {
    gates.iter().rev().map(|gate| gate.inverse()).collect()
}

#[cfg(test)]
mod tests {
    use super::*;
    use crate::lent::LARGEST;
    use crate::pair::Pair;
    use gannetrope::Verdict;

    fn verdict(first: &Circuit, second: &Circuit) -> Verdict {
        Pair::new(first, second).judge_by_hash_maps(LARGEST).report.verdict
    }

    /// A gate of each code, with as few controls as it may have, and gates with more of them.
    fn every_gate() -> Vec<Gate> {
        let gate = |code: Code| match code.least_controls() {
            0 => Gate::one(code, 1),
            _ => Gate::two(code, 0, 1),
        };
        let mut gates: Vec<Gate> = Code::UNMASKED.iter().map(|&code| gate(code)).collect();
        gates.extend([0b101, 0b1101].map(|controls| Gate::toffoli(controls, 1)));
        gates.extend([0b1, 0b1001].map(|controls| Gate::fredkin(controls, (2, 1))));
        gates
    }

    fn alone(gates: Vec<Gate>) -> Circuit {
        Circuit { qubits: 4, gates }
    }

    #[test]
    fn templates_are_equal() {
        for gate in every_gate() {
            let choices = templates(gate);
            assert!(choices.iter().any(|template| added_h(gate, template) == 0));
            for template in choices {
                let verdict = verdict(&alone(vec![gate]), &alone(template.clone()));
                assert!(matches!(verdict, Verdict::Equal { .. }), "{gate:?} {template:?}");
            }
        }
    }

    #[test]
    fn a_changed_gate_is_different() {
        for gate in every_gate() {
            let before = alone(vec![gate]);
            let after = changed(&before, &mut Random::new(1));
            assert!(matches!(verdict(&before, &after), Verdict::Different { .. }), "{gate:?}");
        }
    }

    #[test]
    fn another_order_is_equal() {
        let circuit = Circuit {
            qubits: 4,
            gates: vec![
                Gate::one(Code::H, 0),
                Gate::one(Code::T, 1),
                Gate::two(Code::Cz, 0, 1),
                Gate::two(Code::Cnot, 2, 3),
                Gate::one(Code::Y, 1),
            ],
        };
        for seed in 0..20 {
            let other = reordered(&circuit, &mut Random::new(seed));
            assert!(matches!(verdict(&circuit, &other), Verdict::Equal { .. }));
        }
    }
}
