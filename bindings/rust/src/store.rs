//! Stores: the columns that a diagram lives in.

/// The most slots that a column may have; a store with longer ones is refused with 2.
pub const MOST_SLOTS: usize = 65_536;

/// The seven lent columns of one store: three for nodes, four for values.
#[derive(Debug)]
pub struct Columns<'a> {
    /// The level that each node asks about: 2q for the row bit of qubit q, 2q + 1 for its column bit.
    pub level: &'a mut [u32],
    /// Each node's reference where the bit is 0: 2·j is value j, 2·i + 1 is node i.
    pub low: &'a mut [u32],
    /// Each node's reference where the bit is 1.
    pub high: &'a mut [u32],
    /// The number before w³ of each value.
    pub a: &'a mut [i32],
    /// The number before w² of each value.
    pub b: &'a mut [i32],
    /// The number before w of each value.
    pub c: &'a mut [i32],
    /// The number of each value that stands alone.
    pub d: &'a mut [i32],
}

/// A store that owns its columns.
#[derive(Clone, Debug, Default, PartialEq, Eq)]
pub struct Store {
    /// The nodes' levels.
    pub level: Vec<u32>,
    /// The nodes' references where the bit is 0.
    pub low: Vec<u32>,
    /// The nodes' references where the bit is 1.
    pub high: Vec<u32>,
    /// The values' numbers before w³.
    pub a: Vec<i32>,
    /// The values' numbers before w².
    pub b: Vec<i32>,
    /// The values' numbers before w.
    pub c: Vec<i32>,
    /// The values' numbers that stand alone.
    pub d: Vec<i32>,
}

impl Store {
    /// A store of this many node slots and value slots, all 0.
    pub fn new(nodes: usize, values: usize) -> Self {
        Store {
            level: vec![0; nodes],
            low: vec![0; nodes],
            high: vec![0; nodes],
            a: vec![0; values],
            b: vec![0; values],
            c: vec![0; values],
            d: vec![0; values],
        }
    }

    /// The columns, to be lent.
    pub fn columns(&mut self) -> Columns<'_> {
        Columns {
            level: &mut self.level,
            low: &mut self.low,
            high: &mut self.high,
            a: &mut self.a,
            b: &mut self.b,
            c: &mut self.c,
            d: &mut self.d,
        }
    }
}

/// A node of a reduced diagram.
#[derive(Clone, Copy, Debug, PartialEq, Eq, Hash)]
pub struct Node {
    /// What it asks about: 2q for the row bit of qubit q, 2q + 1 for its column bit.
    pub level: u32,
    /// The reference where that bit is 0: 2·j is value j, 2·i + 1 is node i.
    pub low: u32,
    /// The reference where that bit is 1.
    pub high: u32,
}
