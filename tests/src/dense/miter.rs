//! Miters as full matrices: what each step comes to, and what the end shows.

use gannetrope::Verdict;

use super::diagram::{Reduced, row_and_column};
use super::entry::Entry;
use super::matrix::{Gate, Matrix};
use super::reader::Circuit;

/// The most qubits of which every step is looked at.
pub const MOST_QUBITS: u32 = 6;

/// The widest numbers that any call may hold.
const WIDEST: u32 = 32;

/// A matrix over √2 to the power of an exponent.
#[derive(Clone, Debug, PartialEq, Eq)]
pub struct Miter {
    pub matrix: Matrix,
    pub exponent: u32,
}

impl Miter {
    fn identity(qubits: u32) -> Miter {
        Miter { matrix: Matrix::identity(1 << qubits), exponent: 0 }
    }

    fn on_the_left(&self, gate: &Gate, qubits: u32) -> Miter {
        Miter { matrix: gate.full(qubits).times(&self.matrix), exponent: self.exponent + gate.exponent() }
    }

    fn on_the_right(&self, gate: &Gate, qubits: u32) -> Miter {
        Miter { matrix: self.matrix.times(&gate.full(qubits)), exponent: self.exponent + gate.exponent() }
    }

    /// A circuit's own matrix: its first gate is rightmost.
    pub fn of_circuit(circuit: &Circuit) -> Miter {
        let apply = |product: Miter, gate| product.on_the_left(gate, circuit.qubits);
        circuit.gates.iter().fold(Miter::identity(circuit.qubits), apply)
    }

    /// U·V⁻¹: all of U is taken first, then all of V.
    pub fn of_pair(u: &Circuit, v: &Circuit) -> Miter {
        let apply = |product: Miter, gate: &Gate| product.on_the_right(&gate.inverse(), u.qubits);
        v.gates.iter().fold(Miter::of_circuit(u), apply)
    }

    /// Divided by √2 while the exponent is above 0 and every entry is a multiple of it.
    pub fn lowered(mut self) -> Miter {
        while self.exponent > 0 {
            match self.matrix.over_root_2() {
                Some(matrix) => self = Miter { matrix, exponent: self.exponent - 1 },
                None => break,
            }
        }
        self
    }

    fn corner(&self) -> Entry {
        self.matrix.at(0, 0)
    }

    /// The least width that holds every number.
    pub fn width(&self) -> u32 {
        self.matrix.entries().iter().map(Entry::width).max().expect("a matrix has entries")
    }

    /// Equal with its factor, or different with the lowest place that forbids it.
    pub fn verdict(&self) -> Verdict {
        let corner = self.corner();
        let forbids = |&(row, column): &(usize, usize)| {
            let entry = self.matrix.at(row, column);
            if row == column { entry != corner } else { !entry.is_zero() }
        };
        let places = self.matrix.size() * self.matrix.size();
        match (0..places).map(row_and_column).find(forbids) {
            None => Verdict::Equal { factor: corner.narrow() },
            Some((row, column)) => Verdict::Different {
                row: row as u32,
                column: column as u32,
                entry: self.matrix.at(row, column).narrow(),
                corner: corner.narrow(),
            },
        }
    }
}

/// What a step needs: the width for its product, nodes and values for what is left when that is divided.
#[derive(Clone, Copy, Debug, PartialEq, Eq)]
pub struct Needs {
    pub width: u32,
    pub nodes: usize,
    pub values: usize,
}

impl Needs {
    fn of(product: &Miter, lowered: &Miter) -> Needs {
        let reduced = Reduced::of(&lowered.matrix);
        Needs { width: product.width(), nodes: reduced.nodes(), values: reduced.values() }
    }

    /// What both need.
    pub fn most(self, other: Needs) -> Needs {
        Needs {
            width: self.width.max(other.width),
            nodes: self.nodes.max(other.nodes),
            values: self.values.max(other.values),
        }
    }
}

/// A run by a schedule, up to its end or to the first product that no width holds.
#[derive(Clone, Debug)]
pub struct Run {
    /// What the identity needs, then what each step needs.
    pub needs: Vec<Needs>,
    /// The last step's product, before it is divided.
    pub product: Miter,
    /// What the run comes to: that product, divided.
    pub last: Miter,
}

impl Run {
    /// Runs a schedule that fits.
    pub fn of(u: &Circuit, v: &Circuit, schedule: &[u8]) -> Run {
        let qubits = u.qubits;
        assert!(qubits <= MOST_QUBITS, "{qubits} qubits are too many for every step");
        let (mut from_u, mut from_v) = (u.gates.iter(), v.gates.iter());
        let mut last = Miter::identity(qubits);
        let mut product = last.clone();
        let mut needs = vec![Needs::of(&product, &last)];
        for &side in schedule {
            product = match side {
                0 => last.on_the_left(from_u.next().expect("a gate of U"), qubits),
                _ => last.on_the_right(&from_v.next().expect("a gate of V").inverse(), qubits),
            };
            last = product.clone().lowered();
            needs.push(Needs::of(&product, &last));
            if product.width() > WIDEST {
                break;
            }
        }
        Run { needs, product, last }
    }

    /// The least limits that the whole run keeps.
    pub fn peak(&self) -> Needs {
        self.needs.iter().copied().reduce(Needs::most).expect("the identity's needs")
    }
}
