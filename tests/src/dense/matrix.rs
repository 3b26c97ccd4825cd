//! Full matrices, and the gates as such.

use super::entry::{Entry, ONE, ZERO};

/// A gate of a list: its code and the qubits it names, the controls before the targets. The controls of a mask rise.
#[derive(Clone, Debug, PartialEq, Eq)]
pub struct Gate {
    pub code: u32,
    pub qubits: Vec<u32>,
}

pub const H: u32 = 3;
pub const CNOT: u32 = 8;
pub const CZ: u32 = 9;
pub const TOFFOLI: u32 = 10;
pub const FREDKIN: u32 = 11;
pub const CODES: u32 = 12;

/// How many qubits a gate acts on besides its controls.
pub fn targets(code: u32) -> usize {
    if code == FREDKIN { 2 } else { 1 }
}

impl Gate {
    pub fn new(code: u32, qubits: &[u32]) -> Gate {
        Gate { code, qubits: qubits.to_vec() }
    }

    /// A gate of many controls, in any order.
    pub fn controlled(code: u32, controls: &[u32], targets: &[u32]) -> Gate {
        let mut qubits = controls.to_vec();
        qubits.sort();
        qubits.extend(targets);
        Gate { code, qubits }
    }

    pub fn controls_and_targets(&self) -> (&[u32], &[u32]) {
        self.qubits.split_at(self.qubits.len() - targets(self.code))
    }

    pub fn inverse(&self) -> Gate {
        let code = match self.code {
            4 => 5,
            5 => 4,
            6 => 7,
            7 => 6,
            code => code,
        };
        Gate { code, qubits: self.qubits.clone() }
    }

    /// What the gate adds to the exponent.
    pub fn exponent(&self) -> u32 {
        u32::from(self.code == H)
    }

    /// The gate's own matrix, over the qubits it names.
    fn small(&self) -> Matrix {
        let i = Entry::root(2);
        match self.code {
            0 => Matrix::of([[ZERO, ONE], [ONE, ZERO]]),
            1 => Matrix::of([[ZERO, -i], [i, ZERO]]),
            2 => phase(4),
            3 => Matrix::of([[ONE, ONE], [ONE, -ONE]]),
            4 => phase(2),
            5 => phase(6),
            6 => phase(1),
            7 => phase(7),
            8 => Matrix::of([
                [ONE, ZERO, ZERO, ZERO],
                [ZERO, ONE, ZERO, ZERO],
                [ZERO, ZERO, ZERO, ONE],
                [ZERO, ZERO, ONE, ZERO],
            ]),
            9 => Matrix::of([
                [ONE, ZERO, ZERO, ZERO],
                [ZERO, ONE, ZERO, ZERO],
                [ZERO, ZERO, ONE, ZERO],
                [ZERO, ZERO, ZERO, -ONE],
            ]),
            10 => self.where_all_controls_are_1(|target| target ^ 1),
            11 => self.where_all_controls_are_1(|targets| targets >> 1 | (targets & 1) << 1),
            code => panic!("no gate has code {code}"),
        }
    }

    /// The matrix over the qubits named that changes the targets' bits where it may, and nothing elsewhere.
    fn where_all_controls_are_1(&self, change: impl Fn(usize) -> usize) -> Matrix {
        let size = 1 << self.qubits.len();
        let target_bits = (1 << targets(self.code)) - 1;
        Matrix::from_fn(size, |row, column| {
            let controls_are_1 = column | target_bits == size - 1;
            let image = if controls_are_1 { column & !target_bits | change(column & target_bits) } else { column };
            if row == image { ONE } else { ZERO }
        })
    }

    /// The gate's matrix on n qubits.
    pub fn full(&self, qubits: u32) -> Matrix {
        let small = self.small();
        let named = self.qubits.iter().map(|&q| bit(qubits, q)).fold(0, |all, one| all | one);
        Matrix::from_fn(1 << qubits, |row, column| {
            if (row ^ column) & !named != 0 {
                ZERO
            } else {
                small.at(self.named_bits(qubits, row), self.named_bits(qubits, column))
            }
        })
    }

    /// The bits of the qubits named, the first the most significant.
    fn named_bits(&self, qubits: u32, index: usize) -> usize {
        self.qubits.iter().fold(0, |bits, &q| bits << 1 | usize::from(index & bit(qubits, q) != 0))
    }
}

/// A diagonal matrix of 1 and a power of w.
fn phase(power: usize) -> Matrix {
    Matrix::of([[ONE, ZERO], [ZERO, Entry::root(power)]])
}

/// Qubit q's bit in a row or column number: qubit 0 has the most significant.
pub fn bit(qubits: u32, q: u32) -> usize {
    1 << (qubits - 1 - q)
}

#[derive(Clone, Debug, PartialEq, Eq)]
pub struct Matrix {
    size: usize,
    entries: Vec<Entry>,
}

impl Matrix {
    fn of<const SIZE: usize>(rows: [[Entry; SIZE]; SIZE]) -> Matrix {
        Matrix::from_fn(SIZE, |row, column| rows[row][column])
    }

    pub fn from_fn(size: usize, entry: impl Fn(usize, usize) -> Entry) -> Matrix {
        let entries = (0..size * size).map(|index| entry(index / size, index % size)).collect();
        Matrix { size, entries }
    }

    pub fn identity(size: usize) -> Matrix {
        Matrix::from_fn(size, |row, column| if row == column { ONE } else { ZERO })
    }

    pub fn size(&self) -> usize {
        self.size
    }

    pub fn at(&self, row: usize, column: usize) -> Entry {
        self.entries[row * self.size + column]
    }

    pub fn entries(&self) -> &[Entry] {
        &self.entries
    }

    /// Every entry over √2, if each is a multiple of it.
    pub fn over_root_2(&self) -> Option<Matrix> {
        let entries = self.entries.iter().map(Entry::over_root_2).collect::<Option<Vec<Entry>>>()?;
        Some(Matrix { size: self.size, entries })
    }

    /// The product by its definition; terms with a zero are left out.
    pub fn times(&self, right: &Matrix) -> Matrix {
        let mut product = Matrix { size: self.size, entries: vec![ZERO; self.entries.len()] };
        let right_rows: Vec<Vec<(usize, Entry)>> = (0..self.size).map(|row| right.nonzero(row)).collect();
        for row in 0..self.size {
            for (middle, factor) in self.nonzero(row) {
                for &(column, term) in &right_rows[middle] {
                    let sum = &mut product.entries[row * self.size + column];
                    *sum = *sum + factor * term;
                }
            }
        }
        product
    }

    /// The entries of a row that are not zero, with their columns.
    fn nonzero(&self, row: usize) -> Vec<(usize, Entry)> {
        (0..self.size).map(|column| (column, self.at(row, column))).filter(|(_, entry)| !entry.is_zero()).collect()
    }
}
