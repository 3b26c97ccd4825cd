//! The time of a step by its gate: gates with many controls beside others, over the same diagrams.

use crate::agreement;
use crate::circuit::{Code, Gate, MOST_QUBITS, bit, mask};
use crate::families::{after_h_layer, random_list};
use crate::lent::{LARGEST, Lent};
use crate::pair::{Pair, Step};
use crate::random::Random;
use crate::timing::{least_processor_time, microseconds};
use crate::verdict;

const SEED: u64 = 2;

/// How many Toffoli and Fredkin gates follow the H gates; each number leaves a larger diagram.
const SCRAMBLES: [usize; 4] = [6, 8, 10, 13];

/// How often the gate is done and undone, so that its time stands out from the noise of whole runs. No more, as when
/// exponents were kept and more H gates left 32 bits, so that times compare with earlier ones.
const REPETITIONS: u32 = 3;

/// A gate after the steps that make a diagram.
pub struct Trial {
    diagram: Vec<Step>,
    gate: Gate,
}

pub fn all() -> Vec<Trial> {
    let of_diagram = |count| gates().into_iter().map(move |gate| Trial { diagram: scrambled(count), gate });
    SCRAMBLES.into_iter().flat_map(of_diagram).collect()
}

/// An H on every qubit, then so many Toffoli and Fredkin gates with as few controls as they may have.
fn scrambled(count: usize) -> Vec<Step> {
    let codes = [Code::Toffoli, Code::Fredkin];
    let list = after_h_layer(random_list(MOST_QUBITS, count, &codes, &mut Random::new(SEED)));
    list.gates.into_iter().map(step).collect()
}

fn step(gate: Gate) -> Step {
    Step { gate, list: 0 }
}

/// Gates near the top, in the middle and at the bottom, with controls above and below their targets.
fn gates() -> Vec<Gate> {
    let (top, middle, bottom) = (0, MOST_QUBITS / 2, MOST_QUBITS - 1);
    let all_but = |qubits: &[u8]| (bit(MOST_QUBITS) - 1) & !mask(qubits);
    vec![
        Gate::one(Code::H, top),
        Gate::one(Code::H, middle),
        Gate::one(Code::H, bottom),
        Gate::one(Code::T, middle),
        Gate::two(Code::Cnot, top, bottom),
        Gate::two(Code::Cnot, bottom, top),
        Gate::toffoli(mask(&[bottom - 1, bottom]), top),
        Gate::toffoli(all_but(&[top]), top),
        Gate::toffoli(all_but(&[middle]), middle),
        Gate::toffoli(all_but(&[bottom]), bottom),
        Gate::fredkin(bit(bottom), (top, middle)),
        Gate::fredkin(bit(top), (top + 1, bottom)),
        Gate::fredkin(all_but(&[top, bottom]), (top, bottom)),
        Gate::fredkin(all_but(&[middle - 1, middle]), (middle - 1, middle)),
    ]
}

impl Trial {
    pub fn name(&self) -> String {
        let Gate { code, controls, target, second } = self.gate;
        format!("step of {code:?}, mask {controls:04x}, target {target} {second:?}, after {} steps", self.diagram.len())
    }

    /// The diagram's steps, then the gate.
    pub fn once(&self) -> Pair {
        self.then(&[step(self.gate)])
    }

    /// The diagram's steps, then the gate done and undone.
    fn repeated(&self) -> Pair {
        let there = step(self.gate);
        self.then(&[there, there.undone()].repeat(REPETITIONS as usize))
    }

    fn then(&self, more: &[Step]) -> Pair {
        Pair::of_steps(MOST_QUBITS, &[&self.diagram, more].concat())
    }
}

/// Times the step and gives its line, or what differs; a gate for which the largest stores are too small has a line
/// without times.
pub fn measure(trial: &Trial) -> Result<String, String> {
    let (before, once) = (trial.then(&[]), trial.once());
    let mut lent = Lent::new(LARGEST);
    let judged = once.judge_by_hash_maps(LARGEST);
    agreement::check(&once, &mut lent, &judged).map_err(|wrong| format!("{}: {wrong}", trial.name()))?;
    let from = before.judge_by_library(&mut lent).nodes;
    if verdict::is_full(&judged.report) {
        return Ok(format!("{} {:>6}", beginning(trial, from), "full"));
    }
    let runs = [&before, &trial.repeated()];
    let [answered, repeated] = least_processor_time(runs, |run| run.judge_by_library(&mut lent));
    // a repetition is two steps, one into each diagram
    let time = microseconds(repeated.saturating_sub(answered)) / f64::from(2 * REPETITIONS);
    let mean_nodes = f64::from(from + judged.report.nodes) / 2.0;
    Ok(format!("{} {:>6} {time:>9.1} {:>8.1}", beginning(trial, from), judged.report.nodes, time * 1e3 / mean_nodes))
}

fn beginning(trial: &Trial, from: u32) -> String {
    let Gate { code, controls, target, second } = trial.gate;
    let targets = second.map_or(target.to_string(), |second| format!("{target} {second}"));
    format!("{from:>6} {:<8} {:>8} {controls:>5x} {targets:>7}", format!("{code:?}"), controls.count_ones())
}

/// What the columns are: `from` and `to` are the nodes without and with the gate, `ns/node` is by the mean of both.
pub fn heading() -> String {
    format!(
        "{:>6} {:<8} {:>8} {:>5} {:>7} {:>6} {:>9} {:>8}",
        "from", "gate", "controls", "mask", "targets", "to", "us", "ns/node"
    )
}
