//! Reduced diagrams of full matrices: folded level by level from the values up, then numbered by a walk from the root.

use std::collections::HashMap;

use gannetrope::Node;

use super::entry::Entry;
use super::matrix::Matrix;

/// A reduced diagram, numbered: the used part of a store.
#[derive(Clone, Debug, Default, PartialEq, Eq)]
pub struct Diagram {
    pub nodes: Vec<Node>,
    pub values: Vec<Entry>,
}

/// A part of a diagram that is not numbered yet.
#[derive(Clone, Copy, Debug, PartialEq, Eq, Hash)]
enum Part {
    Value(usize),
    Node(usize),
}

/// A question, and the parts for the answers 0 and 1.
#[derive(Clone, Copy, Debug, PartialEq, Eq, Hash)]
struct Question {
    level: u32,
    low: Part,
    high: Part,
}

/// All different values and questions of a matrix, in no order that matters.
#[derive(Debug)]
pub struct Reduced {
    values: Vec<Entry>,
    questions: Vec<Question>,
    root: Part,
}

/// The row and the column of a place: its bits are r0 c0 r1 c1 .., most significant first.
pub fn row_and_column(place: usize) -> (usize, usize) {
    let (mut row, mut column) = (0, 0);
    for bit in 0..usize::BITS / 2 {
        row |= (place >> (2 * bit + 1) & 1) << bit;
        column |= (place >> (2 * bit) & 1) << bit;
    }
    (row, column)
}

impl Reduced {
    pub fn of(matrix: &Matrix) -> Reduced {
        let mut values = Distinct::new();
        let places = matrix.size() * matrix.size();
        let mut parts: Vec<Part> = (0..places)
            .map(row_and_column)
            .map(|(row, column)| Part::Value(values.number(matrix.at(row, column))))
            .collect();

        let mut questions = Distinct::new();
        for level in (0..places.ilog2()).rev() {
            let ask = |pair: &[Part]| match *pair {
                [low, high] if low == high => low,
                [low, high] => Part::Node(questions.number(Question { level, low, high })),
                _ => unreachable!("an even number of parts"),
            };
            parts = parts.chunks(2).map(ask).collect();
        }
        Reduced { values: values.items, questions: questions.items, root: parts[0] }
    }

    pub fn nodes(&self) -> usize {
        self.questions.len()
    }

    pub fn values(&self) -> usize {
        self.values.len()
    }

    pub fn numbered(&self) -> Diagram {
        let mut numbering = Numbering { reduced: self, references: HashMap::new(), diagram: Diagram::default() };
        numbering.walk(self.root);
        numbering.diagram
    }
}

/// The walk that numbers: low before high, nodes as they are finished, values as they are met.
struct Numbering<'a> {
    reduced: &'a Reduced,
    references: HashMap<Part, u32>,
    diagram: Diagram,
}

impl Numbering<'_> {
    fn walk(&mut self, part: Part) -> u32 {
        if let Some(&reference) = self.references.get(&part) {
            return reference;
        }
        let reference = match part {
            Part::Value(value) => self.meet(self.reduced.values[value]),
            Part::Node(node) => self.finish(self.reduced.questions[node]),
        };
        self.references.insert(part, reference);
        reference
    }

    fn meet(&mut self, value: Entry) -> u32 {
        self.diagram.values.push(value);
        2 * (self.diagram.values.len() as u32 - 1)
    }

    fn finish(&mut self, question: Question) -> u32 {
        let low = self.walk(question.low);
        let high = self.walk(question.high);
        self.diagram.nodes.push(Node { level: question.level, low, high });
        2 * (self.diagram.nodes.len() as u32 - 1) + 1
    }
}

/// Different items, numbered.
struct Distinct<T> {
    items: Vec<T>,
    numbers: HashMap<T, usize>,
}

impl<T: Copy + Eq + std::hash::Hash> Distinct<T> {
    fn new() -> Self {
        Distinct { items: Vec::new(), numbers: HashMap::new() }
    }

    fn number(&mut self, item: T) -> usize {
        *self.numbers.entry(item).or_insert_with(|| {
            self.items.push(item);
            self.items.len() - 1
        })
    }
}
