//! Late, dense refusals: runs whose last step is refused for want of room, over a diagram that nearly fills the store.

use crate::agreement::Agreement;
use crate::circuit::{Circuit, Code, Gate, bit};
use crate::pair::{Pair, Step, steps};
use crate::random::Random;
use crate::rewrite::inverted;
use crate::verdict::NO_ROOM;
use gannetrope::{Limits, Refusal, Report};

/// A run whose last step is refused.
pub struct LateRefusal {
    pub second_is: &'static str,
    pub qubits: u8,
    pub limits: Limits,
    steps: Vec<Step>,
}

impl LateRefusal {
    fn new(first: &Circuit, second: &Circuit, limits: Limits) -> LateRefusal {
        let second_is = if second.gates.is_empty() { "empty" } else { "unrelated" };
        LateRefusal { second_is, qubits: first.qubits, limits, steps: steps(first, second) }
    }

    pub fn name(&self) -> String {
        let LateRefusal { second_is, qubits, limits, .. } = self;
        let (gates, nodes, values) = (self.steps.len(), limits.nodes, limits.values);
        format!("late refusal, {second_is}, {qubits} qubits, {gates} gates, N {nodes}, L {values}")
    }

    /// The steps that are finished before the refused one.
    pub fn finished(&self) -> &[Step] {
        &self.steps[..self.steps.len() - 1]
    }

    /// Whether a report of the run is what it was made for.
    pub fn check_made(&self, report: &Report) -> Agreement {
        let made = Report::refused(Refusal::Step { number: NO_ROOM, steps: self.finished().len() as u32 });
        if *report == made { Ok(()) } else { Err(format!("{report}, but made to be {made}")) }
    }

    pub fn refused(&self) -> Pair {
        Pair::of_steps(self.qubits, &self.steps)
    }

    /// The run without the refused step.
    pub fn answered(&self) -> Pair {
        Pair::of_steps(self.qubits, self.finished())
    }

    /// The answered run, then its last step undone and done again so many times, which leaves the diagram's size.
    pub fn repeated(&self, times: usize) -> Pair {
        let mut steps = self.finished().to_vec();
        let last = steps[steps.len() - 1];
        steps.extend([last.undone(), last].repeat(times));
        Pair::of_steps(self.qubits, &steps)
    }

    pub fn refused_gate(&self) -> Code {
        self.steps[self.steps.len() - 1].gate.code
    }
}

pub fn all() -> Vec<LateRefusal> {
    let mut refusals = vec![h_layer_then_t()];
    refusals.extend(RECIPES.map(dense));
    refusals.extend(PAIRING_RECIPES.map(|(recipe, gate)| dense_then(recipe, gate)));
    refusals
}

/// An H layer on 16 qubits, which just fills 62 nodes, then a T at the top.
fn h_layer_then_t() -> LateRefusal {
    let qubits = 16;
    let mut gates = h_layer(qubits);
    gates.push(Gate::one(Code::T, 0));
    let (first, second) = (Circuit { qubits, gates }, Circuit { qubits, gates: vec![] });
    LateRefusal::new(&first, &second, Limits { nodes: 62, ..Limits::default() })
}

/// How a run of H layers and parity networks is made.
#[derive(Clone, Copy)]
struct Recipe {
    qubits: u8,
    layers: usize,
    /// Gates of the first list, and of the second.
    gates: (usize, usize),
    seed: u64,
    nodes: usize,
    values: usize,
}

/// Of many seeds those on which a walk that forgets, past a full store, what it has seen takes far longer than the step
/// before: the walk is then over paths and no longer over nodes. The refused gate is a T, a T† or a CNOT.
const RECIPES: [Recipe; 19] = [
    Recipe { qubits: 10, layers: 1, gates: (32, 0), seed: 17, nodes: 256, values: 1024 },
    Recipe { qubits: 12, layers: 1, gates: (25, 0), seed: 35, nodes: 256, values: 1024 },
    Recipe { qubits: 16, layers: 1, gates: (36, 0), seed: 36, nodes: 256, values: 1024 },
    Recipe { qubits: 14, layers: 1, gates: (72, 0), seed: 79, nodes: 1024, values: 1024 },
    Recipe { qubits: 16, layers: 1, gates: (66, 0), seed: 88, nodes: 1024, values: 1024 },
    Recipe { qubits: 10, layers: 3, gates: (99, 0), seed: 17, nodes: 4096, values: 1024 },
    Recipe { qubits: 12, layers: 3, gates: (97, 0), seed: 32, nodes: 4096, values: 1024 },
    Recipe { qubits: 14, layers: 1, gates: (100, 0), seed: 17, nodes: 4096, values: 1024 },
    Recipe { qubits: 16, layers: 1, gates: (57, 0), seed: 79, nodes: 4096, values: 1024 },
    Recipe { qubits: 16, layers: 1, gates: (97, 0), seed: 67, nodes: 4096, values: 1024 },
    Recipe { qubits: 10, layers: 2, gates: (74, 0), seed: 66, nodes: 4096, values: 16 },
    Recipe { qubits: 12, layers: 2, gates: (64, 0), seed: 27, nodes: 4096, values: 16 },
    Recipe { qubits: 14, layers: 2, gates: (65, 0), seed: 37, nodes: 4096, values: 16 },
    Recipe { qubits: 16, layers: 2, gates: (69, 0), seed: 80, nodes: 4096, values: 16 },
    Recipe { qubits: 14, layers: 1, gates: (24, 24), seed: 32, nodes: 256, values: 1024 },
    Recipe { qubits: 16, layers: 1, gates: (40, 39), seed: 40, nodes: 1024, values: 1024 },
    Recipe { qubits: 12, layers: 2, gates: (56, 55), seed: 51, nodes: 4096, values: 1024 },
    Recipe { qubits: 10, layers: 2, gates: (59, 58), seed: 74, nodes: 4096, values: 32 },
    Recipe { qubits: 16, layers: 1, gates: (46, 46), seed: 28, nodes: 4096, values: 8 },
];

/// Of many those on which the gate beside the recipe, after the first list, takes long against the step before: an H, or a
/// Toffoli or Fredkin gate with controls below a target or between the two.
const PAIRING_RECIPES: [(Recipe, Gate); 8] = [
    (Recipe { qubits: 14, layers: 1, gates: (83, 0), seed: 108, nodes: 4096, values: 1024 }, Gate::one(Code::H, 2)),
    (Recipe { qubits: 14, layers: 1, gates: (85, 0), seed: 118, nodes: 4096, values: 1024 }, Gate::one(Code::H, 6)),
    (Recipe { qubits: 16, layers: 1, gates: (97, 0), seed: 126, nodes: 4096, values: 1024 }, Gate::one(Code::H, 0)),
    (Recipe { qubits: 16, layers: 1, gates: (78, 0), seed: 7, nodes: 4096, values: 1024 }, Gate::one(Code::H, 3)),
    (Recipe { qubits: 10, layers: 2, gates: (99, 0), seed: 6, nodes: 4096, values: 1024 }, Gate::one(Code::H, 5)),
    (
        Recipe { qubits: 16, layers: 1, gates: (102, 0), seed: 3, nodes: 4096, values: 1024 },
        Gate::toffoli(bit(14) | bit(15), 0),
    ),
    (
        Recipe { qubits: 16, layers: 1, gates: (88, 0), seed: 1, nodes: 4096, values: 1024 },
        Gate::fredkin(bit(0), (1, 15)),
    ),
    (
        Recipe { qubits: 16, layers: 1, gates: (83, 0), seed: 4, nodes: 4096, values: 1024 },
        Gate::fredkin(bit(15), (5, 10)),
    ),
];

impl Recipe {
    fn lists(&self) -> (Circuit, Circuit) {
        let list = |count, seed| dense_list(self.qubits, self.layers, count, &mut Random::new(seed));
        (list(self.gates.0, self.seed), list(self.gates.1, !self.seed))
    }

    fn limits(&self) -> Limits {
        Limits { nodes: self.nodes, values: self.values, ..Limits::default() }
    }
}

fn dense(recipe: Recipe) -> LateRefusal {
    let (first, second) = recipe.lists();
    LateRefusal::new(&first, &second, recipe.limits())
}

fn dense_then(recipe: Recipe, gate: Gate) -> LateRefusal {
    let (mut first, second) = recipe.lists();
    first.gates.push(gate);
    LateRefusal::new(&first, &second, recipe.limits())
}

/// How many parity networks stand between two H layers.
const NETWORKS: usize = 3;

/// H layers with parity networks after each, after the last one as many as it takes.
fn dense_list(qubits: u8, layers: usize, count: usize, random: &mut Random) -> Circuit {
    let mut gates = Vec::new();
    for _ in 0..layers {
        gates.extend(h_layer(qubits));
        gates.extend((0..NETWORKS).flat_map(|_| parity_network(qubits, random)));
    }
    while gates.len() < count {
        gates.extend(parity_network(qubits, random));
    }
    gates.truncate(count);
    Circuit { qubits, gates }
}

/// H on every qubit, the last one first.
fn h_layer(qubits: u8) -> Vec<Gate> {
    (0..qubits).rev().map(|qubit| Gate::one(Code::H, qubit)).collect()
}

/// The parity of random qubits put into one of them, and a T or T† on it; half of the networks then undo the parity.
fn parity_network(qubits: u8, random: &mut Random) -> Vec<Gate> {
    let target = random.qubit(qubits);
    let is_control = |&qubit: &u8| qubit != target && random.percent(50);
    let mut gates: Vec<Gate> =
        (0..qubits).filter(is_control).map(|control| Gate::two(Code::Cnot, control, target)).collect();
    let undoing = inverted(&gates);
    gates.push(Gate::one(random.pick(&[Code::T, Code::Tdg]), target));
    if random.percent(50) {
        gates.extend(undoing);
    }
    gates
}

#[cfg(test)]
mod tests {
    use super::*;
    use crate::rewrite::MOST_H;

    #[test]
    fn every_layer_is_there_and_the_width_is_kept() {
        for recipe in RECIPES {
            let late = dense(recipe);
            let is_h = |step: &&Step| step.gate.code == Code::H;
            let of_first = late.steps.iter().filter(is_h).filter(|step| step.list == 0).count();
            assert_eq!(of_first, recipe.layers * usize::from(recipe.qubits), "{}", late.name());
            assert!(late.steps.iter().filter(is_h).count() <= MOST_H, "{}", late.name());
        }
    }

    #[test]
    fn gates_of_every_kind_are_refused() {
        let refused: Vec<Code> = all().iter().map(LateRefusal::refused_gate).collect();
        for code in [Code::H, Code::T, Code::Tdg, Code::Cnot, Code::Toffoli, Code::Fredkin] {
            assert!(refused.contains(&code), "{code:?} in {refused:?}");
        }
    }

    #[test]
    fn repetitions_end_in_the_same_size() {
        for late in all() {
            let [once, again] = [0, 1].map(|times| late.repeated(times).judge_by_hash_maps(late.limits).report);
            assert_eq!(again.steps, once.steps + 2, "{}", late.name());
            assert_eq!((again.nodes, again.values), (once.nodes, once.values), "{}", late.name());
        }
    }
}
