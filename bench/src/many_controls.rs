//! The pairs with Toffoli and Fredkin gates.

use crate::circuit::{Circuit, Code, Gate, bit};
use crate::families::{Case, adder, after_h_layer, masked_gate, pairs, random_list};
use crate::random::Random;
use crate::rewrite::rewritten;
use crate::toffoli;

pub fn all() -> Vec<Case> {
    let mut cases = Vec::new();
    for qubits in [4, 6, 8, 10, 12, 14, 16] {
        cases.extend(random_pairs(qubits));
    }
    for qubits in [4, 8, 12, 16] {
        cases.extend(adder_pairs(qubits));
    }
    for qubits in [5, 9, 13, 15] {
        cases.extend(swap_test_pairs(qubits));
    }
    for qubits in [4, 8, 12, 16] {
        cases.extend(reversible_pairs(qubits));
    }
    cases
}

/// One of those with which every list has enough Toffoli gates and no pair has too many H gates.
const RANDOM_SEED: u64 = 40;

/// Random Clifford+T lists with Toffoli gates of two controls, after an H layer, against the Toffoli gates' networks.
fn random_pairs(qubits: u8) -> Vec<Case> {
    let mut cases = Vec::new();
    for gates_per_qubit in [3, 5] {
        let seed = RANDOM_SEED + 100 * gates_per_qubit + u64::from(qubits);
        let random = &mut Random::new(seed);
        let count = gates_per_qubit as usize * usize::from(qubits);
        let first = after_h_layer(random_list(qubits, count, Code::ALL_BUT_FREDKIN, random));
        let equal = toffoli::by_networks(&first, toffoli::network);
        cases.extend(pairs("Toffoli random", first, ("networks", equal), random));
    }
    cases
}

/// The adder with Toffoli gates by their code: against the networks, and against itself.
fn adder_pairs(qubits: u8) -> Vec<Case> {
    let random = &mut Random::new(700 + u64::from(qubits));
    let first = adder(qubits, toffoli::by_code);
    let by_networks = adder(qubits, toffoli::network);
    let mut cases = pairs("Toffoli adder", first.clone(), ("networks", by_networks), random).to_vec();
    cases.extend(pairs("Toffoli adder", first.clone(), ("the same", first), random));
    cases
}

/// The swap test: qubit 0 decides whether two registers are exchanged. Every gate is rewritten.
fn swap_test_pairs(qubits: u8) -> [Case; 2] {
    let random = &mut Random::new(800 + u64::from(qubits));
    let size = qubits / 2;
    let h = Gate::one(Code::H, 0);
    let mut gates = vec![h];
    gates.extend((1..=size).map(|qubit| Gate::fredkin(bit(0), (qubit, qubit + size))));
    gates.push(h);
    let first = Circuit { qubits, gates };
    let equal = rewritten(&first, 100, random);
    pairs("swap test", first, ("rewritten", equal), random)
}

/// How many gates a qubit the reversible lists have.
const REVERSIBLE_GATES: usize = 4;

/// Reversible logic: random Toffoli and Fredkin gates with any number of controls, half of them rewritten.
fn reversible_pairs(qubits: u8) -> [Case; 2] {
    let random = &mut Random::new(900 + u64::from(qubits));
    let count = REVERSIBLE_GATES * usize::from(qubits);
    let gates = (0..count).map(|_| reversible_gate(qubits, random)).collect();
    let first = Circuit { qubits, gates };
    let equal = rewritten(&first, 50, random);
    pairs("reversible", first, ("rewritten", equal), random)
}

fn reversible_gate(qubits: u8, random: &mut Random) -> Gate {
    let code = random.pick(&[Code::Toffoli, Code::Fredkin]);
    let least = code.least_controls() as usize;
    let most = usize::from(qubits) - code.targets();
    let controls = least + random.below(most - least + 1);
    masked_gate(code, qubits, controls, random)
}

#[cfg(test)]
mod tests {
    use super::*;
    use crate::rewrite::MOST_H;

    #[test]
    fn the_width_is_kept() {
        for case in all() {
            assert!(case.first.count(Code::H) + case.second.count(Code::H) <= MOST_H, "{}", case.name());
        }
    }
}
