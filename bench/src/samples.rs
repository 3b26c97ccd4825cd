//! Samples of pairs, to count what is answered of them: many of a family and a size, by seed, with any number of H
//! gates.

use crate::circuit::{Circuit, Code, Gate};
use crate::families::{Case, adder, after_h_layer, h_layer, pairs, random_list};
use crate::random::Random;
use crate::rewrite::{reordered, rewritten_freely};
use crate::toffoli::{by_networks, network, other_network};

/// The qubits that each family is made on.
const SIZES: [u8; 3] = [8, 12, 16];

/// How many seeds a sample has for itself.
const SEEDS: u64 = 1000;

/// How many pairs a sample has; fewer where lists are long, or only their rewriting is random.
const MANY: u64 = 100;
const FEW: u64 = 20;

/// How many of a hundred gates are rewritten.
const THREE_IN_TEN: usize = 30;
const ALL: usize = 100;

/// Makes a list on so many qubits, and one that is equal to it.
type Maker = fn(u8, &mut Random) -> (Circuit, Circuit);

struct Family {
    name: &'static str,
    /// How the second list comes about.
    second_is: &'static str,
    pairs: u64,
    lists: Maker,
}

const fn family(name: &'static str, second_is: &'static str, pairs: u64, lists: Maker) -> Family {
    Family { name, second_is, pairs, lists }
}

/// The adder by networks is the same by every seed, so there is one pair.
static FAMILIES: [Family; 10] = [
    family("random, 3 a qubit", "rewritten", MANY, random_lists::<3>),
    family("random, 5 a qubit", "rewritten", MANY, random_lists::<5>),
    family("random, 10 a qubit", "rewritten", MANY, random_lists::<10>),
    family("Toffoli, 3 a qubit", "networks", MANY, toffoli_lists::<3>),
    family("Toffoli, 5 a qubit", "networks", MANY, toffoli_lists::<5>),
    family("Toffoli, 10 a qubit", "networks", MANY, toffoli_lists::<10>),
    family("adder", "networks", 1, adder_lists),
    family("adder", "rewritten", FEW, rewritten_adder_lists),
    family("QFT", "rewritten", FEW, fourier_lists),
    family("deep", "reordered", FEW, deep_lists),
];

/// A family at a size.
pub struct Sample {
    pub qubits: u8,
    family: &'static Family,
    first_seed: u64,
}

pub fn all() -> Vec<Sample> {
    let sizes_of = |family| SIZES.map(|qubits| (qubits, family));
    let sample = |((qubits, family), number)| Sample { qubits, family, first_seed: SEEDS * number };
    FAMILIES.iter().flat_map(sizes_of).zip(0..).map(sample).collect()
}

impl Sample {
    pub fn name(&self) -> String {
        format!("{}, {}, {} qubits", self.family(), self.second_is(), self.qubits)
    }

    pub fn family(&self) -> &'static str {
        self.family.name
    }

    pub fn second_is(&self) -> &'static str {
        self.family.second_is
    }

    /// The gates of the first pair.
    pub fn gates(&self) -> String {
        let [equal, _] = self.pair(0);
        equal.gates()
    }

    /// Every pair twice: equal, and with one gate of the second list changed.
    pub fn pairs(&self) -> impl Iterator<Item = [Case; 2]> {
        (0..self.family.pairs).map(|number| self.pair(number))
    }

    fn pair(&self, number: u64) -> [Case; 2] {
        let random = &mut Random::new(self.first_seed + number);
        let Family { name, second_is, lists, .. } = *self.family;
        let (first, equal) = lists(self.qubits, random);
        pairs(name, first, (second_is, equal), random)
    }
}

/// Random Clifford+T gates between two H layers, three gates in ten rewritten.
fn random_lists<const GATES_PER_QUBIT: usize>(qubits: u8, random: &mut Random) -> (Circuit, Circuit) {
    let list = between_h_layers(qubits, GATES_PER_QUBIT, Code::UNMASKED, random);
    with_rewriting(THREE_IN_TEN, list, random)
}

/// An H on every qubit, random gates of these codes, and once more an H on every qubit.
fn between_h_layers(qubits: u8, gates_per_qubit: usize, codes: &[Code], random: &mut Random) -> Circuit {
    let mut list = after_h_layer(random_list(qubits, gates_per_qubit * usize::from(qubits), codes, random));
    list.gates.extend(h_layer(qubits));
    list
}

/// The list, and the same with so many of a hundred gates by templates.
fn with_rewriting(percent: usize, list: Circuit, random: &mut Random) -> (Circuit, Circuit) {
    let rewritten = rewritten_freely(&list, percent, random);
    (list, rewritten)
}

/// The same with Toffoli gates among them, these by one network against another, and nothing rewritten.
fn toffoli_lists<const GATES_PER_QUBIT: usize>(qubits: u8, random: &mut Random) -> (Circuit, Circuit) {
    let list = between_h_layers(qubits, GATES_PER_QUBIT, Code::ALL_BUT_FREDKIN, random);
    (by_networks(&list, network), by_networks(&list, other_network))
}

fn adder_lists(qubits: u8, _: &mut Random) -> (Circuit, Circuit) {
    (adder(qubits, network), adder(qubits, other_network))
}

/// The adder, three gates in ten rewritten.
fn rewritten_adder_lists(qubits: u8, random: &mut Random) -> (Circuit, Circuit) {
    with_rewriting(THREE_IN_TEN, adder(qubits, network), random)
}

/// The Fourier transform, every gate rewritten.
fn fourier_lists(qubits: u8, random: &mut Random) -> (Circuit, Circuit) {
    with_rewriting(ALL, fourier_transform(qubits), random)
}

/// The Fourier transform without its last swaps, cut off after the controlled S gates: a controlled T is no Clifford+T
/// network on its two qubits.
fn fourier_transform(qubits: u8) -> Circuit {
    let mut gates = vec![Gate::one(Code::H, 0)];
    for qubit in 1..qubits {
        gates.extend(controlled_s(qubit, qubit - 1));
        gates.push(Gate::one(Code::H, qubit));
    }
    Circuit { qubits, gates }
}

fn controlled_s(control: u8, target: u8) -> [Gate; 5] {
    let cnot = Gate::two(Code::Cnot, control, target);
    [Gate::one(Code::T, control), Gate::one(Code::T, target), cnot, Gate::one(Code::Tdg, target), cnot]
}

/// How many gates a deep list has.
const DEEP: usize = 1024;

/// Long lists of all ten codes alike, so that one gate in ten is an H, against another order.
fn deep_lists(qubits: u8, random: &mut Random) -> (Circuit, Circuit) {
    let list = random_list(qubits, DEEP, Code::UNMASKED, random);
    let reordered = reordered(&list, random);
    (list, reordered)
}

#[cfg(test)]
mod tests {
    use super::*;
    use crate::circuit::MOST_QUBITS;
    use crate::lent::LARGEST;
    use crate::pair::Pair;
    use crate::rewrite::MOST_H;
    use gannetrope::Verdict;

    /// On two qubits nothing is cut off, and the transform done twice takes x to -x modulo 4.
    #[test]
    fn two_transforms_negate() {
        let circuit = |gates| Circuit { qubits: 2, gates };
        let negation = Gate::two(Code::Cnot, 1, 0);
        let swap = [negation, Gate::two(Code::Cnot, 0, 1), negation];
        let transform = [&fourier_transform(2).gates[..], &swap].concat();
        let pair = Pair::new(&circuit(transform.repeat(2)), &circuit(vec![negation]));
        let verdict = pair.judge_by_hash_maps(LARGEST).report.verdict;
        assert!(matches!(verdict, Verdict::Equal { .. }), "{verdict}");
    }

    #[test]
    fn layers_stand_at_both_ends() {
        let list = between_h_layers(3, 5, Code::UNMASKED, &mut Random::new(1));
        let layer = [0, 1, 2].map(|qubit| Gate::one(Code::H, qubit));
        assert!(list.gates.starts_with(&layer) && list.gates.ends_with(&layer));
        assert_eq!(list.gates.len(), 3 + 3 * 5 + 3);
    }

    #[test]
    fn no_two_samples_share_seeds() {
        assert!(FAMILIES.iter().all(|family| family.pairs <= SEEDS));
    }

    #[test]
    fn h_gates_are_not_limited() {
        let h_gates = |[equal, _]: [Case; 2]| equal.first.count(Code::H) + equal.second.count(Code::H);
        for sample in all().iter().filter(|sample| sample.qubits == MOST_QUBITS && sample.second_is() == "rewritten") {
            assert!(sample.pairs().map(h_gates).any(|count| count > MOST_H), "{}", sample.family());
        }
    }
}
