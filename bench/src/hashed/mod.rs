//! The same step-by-step multiplication of reduced diagrams, written plainly and unverified: unique tables and computed
//! table are the standard library's hash maps with their default hasher. Of the binding only plain types are used.

mod diagram;
mod entries;
mod search;
mod step;

pub use diagram::Diagram;

use crate::circuit::{Circuit, Code, Gate};
use crate::verdict::{NO_ROOM, OUTSIDE_WIDTH};
use diagram::Builder;
use gannetrope::{Limits, Refusal, Report, Verdict};
use step::{Action, ComputedTable, Side};

/// What is done about the exponent of √2 after a step.
#[derive(Clone, Copy, PartialEq, Eq)]
pub enum Exponents {
    /// It is lowered while all entries can be divided by √2.
    Lowered,
    /// It stays the number of H gates, as it did before exponents were lowered (S-4).
    Kept,
}

/// What a run came to, and how large its diagrams were.
pub struct Judged {
    pub report: Report,
    /// The miter's reduced diagram; empty if the report is a refusal.
    pub diagram: Diagram,
    pub work: Work,
}

/// Sizes over the identity and every product.
#[derive(Clone, Default)]
pub struct Work {
    pub peak_nodes: usize,
    pub peak_values: usize,
    /// The sum over the steps of the nodes of the product.
    pub node_steps: usize,
}

impl Work {
    fn see(&mut self, diagram: &Diagram) {
        self.peak_nodes = self.peak_nodes.max(diagram.nodes.len());
        self.peak_values = self.peak_values.max(diagram.values.len());
    }

    fn see_product(&mut self, diagram: &Diagram) {
        self.see(diagram);
        self.node_steps += diagram.nodes.len();
    }
}

/// Judges two well-formed lists with equal qubit counts by a schedule that fits.
pub fn judge(first: &[u8], second: &[u8], schedule: &[u8], limits: Limits, exponents: Exponents) -> Judged {
    let first = Circuit::decode(first).expect("list 1 is well formed");
    let second = Circuit::decode(second).expect("list 2 is well formed");
    let mut run = Run::new(first.qubits, limits, exponents);
    let (report, diagram) = match run.take_all(&first.gates, &second.gates, schedule) {
        Ok(()) => (run.report(), run.miter),
        Err(number) => (Report::refused(Refusal::Step { number, steps: run.steps }), Diagram::default()),
    };
    Judged { report, diagram, work: run.work }
}

struct Run {
    limits: Limits,
    exponents: Exponents,
    qubits: u8,
    /// The miter after the steps so far.
    miter: Diagram,
    /// Where the next product is built.
    builder: Builder,
    computed: ComputedTable,
    exponent: u32,
    steps: u32,
    work: Work,
}

impl Run {
    fn new(qubits: u8, limits: Limits, exponents: Exponents) -> Run {
        Run {
            limits,
            exponents,
            qubits,
            miter: Diagram::default(),
            builder: Builder::default(),
            computed: ComputedTable::new(),
            exponent: 0,
            steps: 0,
            work: Work::default(),
        }
    }

    /// Takes every step, or gives the number of the refusal that stops the run.
    fn take_all(&mut self, first: &[Gate], second: &[Gate], schedule: &[u8]) -> Result<(), u32> {
        self.builder.put_identity(self.qubits);
        self.work.see(&self.builder.diagram);
        self.accept()?;
        let (mut of_first, mut of_second) = (first.iter(), second.iter());
        for &who in schedule {
            let (gates, side) = match who {
                0 => (&mut of_first, Side::Left),
                _ => (&mut of_second, Side::Right),
            };
            self.take(*gates.next().expect("the schedule fits"), side)?;
        }
        Ok(())
    }

    fn take(&mut self, gate: Gate, side: Side) -> Result<(), u32> {
        let action = Action::new(gate, side);
        self.builder.clear();
        let inside = step::multiply(&action, &self.miter, self.limits.width, &mut self.computed, &mut self.builder);
        self.work.see_product(&self.builder.diagram);
        if !inside {
            return Err(OUTSIDE_WIDTH);
        }
        self.exponent += u32::from(gate.code == Code::H);
        if self.exponents == Exponents::Lowered {
            self.lower();
        }
        self.accept()?;
        self.steps += 1;
        Ok(())
    }

    /// Divides what was built by √2 as often as the exponent allows and every entry can be.
    fn lower(&mut self) {
        while self.exponent > 0 && self.builder.diagram.divide() {
            self.exponent -= 1;
        }
    }

    /// What was built becomes the miter, if it is within the limits.
    fn accept(&mut self) -> Result<(), u32> {
        let built = &mut self.builder.diagram;
        if built.nodes.len() > self.limits.nodes || built.values.len() > self.limits.values {
            return Err(NO_ROOM);
        }
        std::mem::swap(&mut self.miter, built);
        Ok(())
    }

    fn report(&self) -> Report {
        let corner = self.miter.corner();
        let verdict = match search::forbidding_place(&self.miter, self.qubits) {
            None => Verdict::Equal { factor: corner },
            Some(place) => Verdict::Different { row: place.row, column: place.column, entry: place.entry, corner },
        };
        Report {
            verdict,
            exponent: self.exponent,
            steps: self.steps,
            nodes: self.miter.nodes.len() as u32,
            values: self.miter.values.len() as u32,
        }
    }
}

#[cfg(test)]
mod tests;
