//! The verdict: the lowest place that forbids equality, if there is one.

use super::diagram::{Diagram, Reference};
use gannetrope::Entry;
use std::collections::HashSet;

/// A row, a column, and the entry there.
pub struct Place {
    pub row: u32,
    pub column: u32,
    pub entry: Entry,
}

/// The lowest place that is off the diagonal and not zero, or on it and unlike the corner.
pub fn forbidding_place(diagram: &Diagram, qubits: u8) -> Option<Place> {
    let mut search = Search { diagram, qubits, corner: diagram.corner(), clean: HashSet::new() };
    search.on_diagonal(Block { reference: diagram.root, qubit: 0, row: 0, column: 0 })
}

/// A part of the matrix: the bits of the qubits before `qubit` are chosen.
#[derive(Clone, Copy)]
struct Block {
    reference: Reference,
    qubit: u8,
    row: u32,
    column: u32,
}

/// The row bit and the column bit of a qubit, lowest place first.
const QUARTERS: [(bool, bool); 4] = [(false, false), (false, true), (true, false), (true, true)];

struct Search<'a> {
    diagram: &'a Diagram,
    qubits: u8,
    corner: Entry,
    /// The diagonal blocks that were searched in vain.
    clean: HashSet<(Reference, u8)>,
}

impl Search<'_> {
    fn on_diagonal(&mut self, block: Block) -> Option<Place> {
        if block.qubit == self.qubits {
            return self.place_unlike(self.corner, block);
        }
        if self.clean.contains(&(block.reference, block.qubit)) {
            return None;
        }
        for (row_bit, column_bit) in QUARTERS {
            let quarter = self.quarter(block, row_bit, column_bit);
            let found = match row_bit == column_bit {
                true => self.on_diagonal(quarter),
                false => self.off_diagonal(quarter),
            };
            if found.is_some() {
                return found;
            }
        }
        self.clean.insert((block.reference, block.qubit));
        None
    }

    /// The first entry that is not zero. In a reduced diagram only the zero value has none, so the search never turns
    /// back.
    fn off_diagonal(&self, block: Block) -> Option<Place> {
        if block.qubit == self.qubits {
            return self.place_unlike(Entry::default(), block);
        }
        if self.diagram.is_value(block.reference, Entry::default()) {
            return None;
        }
        QUARTERS.iter().find_map(|&(row_bit, column_bit)| self.off_diagonal(self.quarter(block, row_bit, column_bit)))
    }

    fn quarter(&self, block: Block, row_bit: bool, column_bit: bool) -> Block {
        let level = 2 * u32::from(block.qubit);
        let row = self.diagram.cofactor(block.reference, level, row_bit);
        Block {
            reference: self.diagram.cofactor(row, level + 1, column_bit),
            qubit: block.qubit + 1,
            row: 2 * block.row + u32::from(row_bit),
            column: 2 * block.column + u32::from(column_bit),
        }
    }

    fn place_unlike(&self, wanted: Entry, block: Block) -> Option<Place> {
        let entry = self.diagram.value(block.reference);
        (entry != wanted).then_some(Place { row: block.row, column: block.column, entry })
    }
}
