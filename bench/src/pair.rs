//! A pair of lists as bytes with its schedule, ready to be judged.

use crate::circuit::{Circuit, Gate, join_lists, split_lists};
use crate::hashed::{self, Exponents, Judged};
use crate::lent::Lent;
use gannetrope::{Limits, Report, judge_in, proportional};

pub struct Pair {
    pub qubits: u8,
    pub gates: (usize, usize),
    list1: Vec<u8>,
    list2: Vec<u8>,
    schedule: Vec<u8>,
}

/// A step of a run: the next gate, and the byte of the schedule that says whose it is.
#[derive(Clone, Copy)]
pub struct Step {
    pub gate: Gate,
    pub list: u8,
}

impl Step {
    /// The step that takes this one back.
    pub fn undone(self) -> Step {
        Step { gate: self.gate.inverse(), list: self.list }
    }
}

impl Pair {
    /// The pair by the proportional schedule.
    pub fn new(first: &Circuit, second: &Circuit) -> Pair {
        Pair::of_steps(first.qubits, &steps(first, second))
    }

    /// The pair whose run has just these steps.
    pub fn of_steps(qubits: u8, steps: &[Step]) -> Pair {
        let gates_of = |list| steps.iter().filter(|step| step.list == list).map(|step| step.gate).collect();
        let [first, second] = [0, 1].map(|list| Circuit { qubits, gates: gates_of(list) });
        Pair {
            qubits,
            gates: (first.gates.len(), second.gates.len()),
            list1: first.encode(),
            list2: second.encode(),
            schedule: steps.iter().map(|step| step.list).collect(),
        }
    }

    /// The pair of an input of the verdict program; `None` if its lists are not well formed and on as many qubits.
    pub fn from_input(input: &[u8]) -> Option<Pair> {
        let (list1, list2) = split_lists(input)?;
        let (first, second) = (Circuit::decode(list1)?, Circuit::decode(list2)?);
        (first.qubits == second.qubits).then(|| Pair::new(&first, &second))
    }

    /// The pair as the verdict program reads it.
    pub fn input(&self) -> Vec<u8> {
        join_lists(&self.list1, &self.list2)
    }

    pub fn judge_by_library(&self, lent: &mut Lent) -> Report {
        let width = lent.limits.width;
        judge_in(&self.list1, &self.list2, &self.schedule, width, lent.first.columns(), lent.second.columns())
    }

    pub fn judge_by_hash_maps(&self, limits: Limits) -> Judged {
        self.judge_with(Exponents::Lowered, limits)
    }

    /// As it was judged before exponents were lowered.
    pub fn judge_with_kept_exponents(&self, limits: Limits) -> Judged {
        self.judge_with(Exponents::Kept, limits)
    }

    fn judge_with(&self, exponents: Exponents, limits: Limits) -> Judged {
        hashed::judge(&self.list1, &self.list2, &self.schedule, limits, exponents)
    }
}

/// The steps of two lists by the proportional schedule.
pub fn steps(first: &Circuit, second: &Circuit) -> Vec<Step> {
    let [m, p] = [first, second].map(|circuit| circuit.gates.len() as u32);
    let schedule = proportional(m, p).expect("no list is too long");
    let mut gates = [&first.gates, &second.gates].map(|gates| gates.iter().copied());
    let step = |list: u8| Step { gate: gates[usize::from(list)].next().expect("the schedule fits"), list };
    schedule.into_iter().map(step).collect()
}
