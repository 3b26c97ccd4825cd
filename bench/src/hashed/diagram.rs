//! Reduced diagrams: levels ask in turn for the row bit and the column bit of qubit 0, 1, ..; terminals are entries.

use super::entries::{divided, is_divisible};
use gannetrope::{Entry, Limits, Store};
use std::collections::HashMap;

/// Twice a value's number, or twice a node's number and one more.
#[derive(Clone, Copy, PartialEq, Eq, Hash, Debug, Default)]
pub struct Reference(pub u32);

impl Reference {
    fn to_value(number: usize) -> Reference {
        Reference(2 * number as u32)
    }

    fn to_node(number: usize) -> Reference {
        Reference(2 * number as u32 + 1)
    }

    fn is_node(self) -> bool {
        self.0 % 2 == 1
    }

    fn number(self) -> usize {
        (self.0 / 2) as usize
    }
}

#[derive(Clone, Copy, PartialEq, Eq, Hash, Debug)]
pub struct Node {
    pub level: u32,
    pub low: Reference,
    pub high: Reference,
}

/// The level of what asks nothing.
pub const PAST_ALL: u32 = u32::MAX;

#[derive(Clone, Default)]
pub struct Diagram {
    pub nodes: Vec<Node>,
    pub values: Vec<Entry>,
    pub root: Reference,
}

impl Diagram {
    /// The level that a reference asks about next.
    pub fn level(&self, reference: Reference) -> u32 {
        match reference.is_node() {
            true => self.nodes[reference.number()].level,
            false => PAST_ALL,
        }
    }

    /// Where a reference leads by the bit of a level that is not past its own.
    pub fn cofactor(&self, reference: Reference, level: u32, bit: bool) -> Reference {
        if self.level(reference) != level {
            return reference;
        }
        let node = self.nodes[reference.number()];
        match bit {
            false => node.low,
            true => node.high,
        }
    }

    /// The value that a reference is to.
    pub fn value(&self, reference: Reference) -> Entry {
        debug_assert!(!reference.is_node());
        self.values[reference.number()]
    }

    pub fn is_value(&self, reference: Reference, entry: Entry) -> bool {
        !reference.is_node() && self.value(reference) == entry
    }

    /// Divides every entry by √2 if each is a multiple of it, and gives whether it did. Dividing is one-to-one, so the
    /// nodes stay.
    pub fn divide(&mut self) -> bool {
        let all_divisible = self.values.iter().copied().all(is_divisible);
        if all_divisible {
            self.values.iter_mut().for_each(|value| *value = divided(*value));
        }
        all_divisible
    }

    /// A store of such limits that holds the diagram in its first slots and 0 in all others.
    pub fn store(&self, limits: Limits) -> Store {
        let mut store = Store::new(limits.nodes, limits.values);
        for (slot, node) in self.nodes.iter().enumerate() {
            (store.level[slot], store.low[slot], store.high[slot]) = (node.level, node.low.0, node.high.0);
        }
        for (slot, value) in self.values.iter().enumerate() {
            (store.a[slot], store.b[slot], store.c[slot], store.d[slot]) = (value.a, value.b, value.c, value.d);
        }
        store
    }

    /// The entry at row 0, column 0.
    pub fn corner(&self) -> Entry {
        let mut reference = self.root;
        while reference.is_node() {
            reference = self.nodes[reference.number()].low;
        }
        self.value(reference)
    }
}

/// A diagram in the making, with its unique tables.
#[derive(Default)]
pub struct Builder {
    pub diagram: Diagram,
    node_table: HashMap<Node, Reference>,
    value_table: HashMap<Entry, Reference>,
}

impl Builder {
    pub fn clear(&mut self) {
        self.diagram.nodes.clear();
        self.diagram.values.clear();
        self.node_table.clear();
        self.value_table.clear();
    }

    /// The value, found or appended.
    pub fn value(&mut self, entry: Entry) -> Reference {
        let values = &mut self.diagram.values;
        *self.value_table.entry(entry).or_insert_with(|| {
            values.push(entry);
            Reference::to_value(values.len() - 1)
        })
    }

    /// The node over two answers, found or appended; equal answers need none.
    pub fn node(&mut self, level: u32, low: Reference, high: Reference) -> Reference {
        if low == high {
            return low;
        }
        let node = Node { level, low, high };
        let nodes = &mut self.diagram.nodes;
        *self.node_table.entry(node).or_insert_with(|| {
            nodes.push(node);
            Reference::to_node(nodes.len() - 1)
        })
    }

    /// Builds the identity.
    pub fn put_identity(&mut self, qubits: u8) {
        let mut below = self.value(Entry::new(0, 0, 0, 1));
        let zero = self.value(Entry::default());
        for qubit in (0..u32::from(qubits)).rev() {
            let row_0 = self.node(2 * qubit + 1, below, zero);
            let row_1 = self.node(2 * qubit + 1, zero, below);
            below = self.node(2 * qubit, row_0, row_1);
        }
        self.diagram.root = below;
    }
}
