//! The report: what a judged pair comes to.

use std::fmt;

/// Four whole numbers, meaning `a·w³ + b·w² + c·w + d` with w the eighth root of unity e^(iπ/4).
#[derive(Clone, Copy, Debug, Default, PartialEq, Eq, Hash)]
pub struct Entry {
    /// The number before w³.
    pub a: i32,
    /// The number before w².
    pub b: i32,
    /// The number before w.
    pub c: i32,
    /// The number that stands alone.
    pub d: i32,
}

impl Entry {
    /// The entry with these four numbers.
    pub const fn new(a: i32, b: i32, c: i32, d: i32) -> Self {
        Entry { a, b, c, d }
    }
}

/// The four numbers, a blank between them.
impl fmt::Display for Entry {
    fn fmt(&self, out: &mut fmt::Formatter<'_>) -> fmt::Result {
        let Entry { a, b, c, d } = self;
        write!(out, "{a} {b} {c} {d}")
    }
}

/// The answer, with what is known of the miter U·V⁻¹ of the two lists.
///
/// The four counts are 0 where the verdict is [`Verdict::Refused`].
#[derive(Clone, Copy, Debug, PartialEq, Eq, Hash)]
pub struct Report {
    /// The answer itself.
    pub verdict: Verdict,
    /// The power of √2 that every entry of the miter is divided by, the least possible.
    pub exponent: u32,
    /// How many gates were applied: those of both lists.
    pub steps: u32,
    /// Nodes of the miter's reduced diagram.
    pub nodes: u32,
    /// Values of the miter's reduced diagram.
    pub values: u32,
}

impl Report {
    /// The report of a refused call.
    pub const fn refused(refusal: Refusal) -> Self {
        Report { verdict: Verdict::Refused(refusal), exponent: 0, steps: 0, nodes: 0, values: 0 }
    }
}

/// The line that the verdict program prints, without its line feed.
impl fmt::Display for Report {
    fn fmt(&self, out: &mut fmt::Formatter<'_>) -> fmt::Result {
        write!(out, "{}", self.verdict)?;
        if let Verdict::Refused(_) = self.verdict {
            return Ok(());
        }
        let Report { exponent, steps, nodes, values, .. } = self;
        write!(out, " exponent {exponent} steps {steps} nodes {nodes} values {values}")
    }
}

/// Equal, different, or refused.
#[derive(Clone, Copy, Debug, PartialEq, Eq, Hash)]
pub enum Verdict {
    /// One number times the second list's matrix gives the first's.
    Equal {
        /// That number, over √2 to the power of the report's exponent.
        factor: Entry,
    },
    /// No number does: the miter has an entry that forbids it.
    Different {
        /// The row of the first forbidding entry.
        row: u32,
        /// Its column.
        column: u32,
        /// The entry: off the diagonal and not zero, or on it and unlike the corner.
        entry: Entry,
        /// The miter's entry at row 0, column 0.
        corner: Entry,
    },
    /// The call was not judged.
    Refused(Refusal),
}

/// The verdict's part of the verdict program's line.
impl fmt::Display for Verdict {
    fn fmt(&self, out: &mut fmt::Formatter<'_>) -> fmt::Result {
        match self {
            Verdict::Equal { factor } => write!(out, "equal factor {factor}"),
            Verdict::Different { row, column, entry, corner } => {
                write!(out, "different row {row} column {column} entry {entry} corner {corner}")
            }
            Verdict::Refused(refusal) => write!(out, "{refusal}"),
        }
    }
}

/// Why a call was refused: a number, and where the failure was met.
#[derive(Clone, Copy, Debug, PartialEq, Eq, Hash)]
pub enum Refusal {
    /// The call itself: 1 width, 2 column lengths, 11 qubit counts differ, 12 schedule does not fit; of the schedule
    /// maker 6 gate count, 15 buffer; of the writer of an inverse 16 buffer.
    Call {
        /// The refusal's number.
        number: u32,
    },
    /// A list's bytes: 3 cut number, 4 number not in shortest form, 5 qubit count, 6 gate count, 7 code, 8 qubit or
    /// bit of a mask past the qubit count, 9 qubit named twice by its gate, 10 bytes remain, 17 too few controls.
    Byte {
        /// The refusal's number.
        number: u32,
        /// The list, 1 or 2.
        list: u32,
        /// The offset in that list.
        offset: u32,
    },
    /// A step: 13 a number of its product outside the width, before it is divided; 14 more nodes or values than the
    /// stores hold.
    Step {
        /// The refusal's number.
        number: u32,
        /// Steps finished before it.
        steps: u32,
    },
}

impl Refusal {
    /// The refusal's number.
    pub const fn number(&self) -> u32 {
        match *self {
            Refusal::Call { number } | Refusal::Byte { number, .. } | Refusal::Step { number, .. } => number,
        }
    }
}

/// The verdict program's line of a refusal.
impl fmt::Display for Refusal {
    fn fmt(&self, out: &mut fmt::Formatter<'_>) -> fmt::Result {
        match self {
            Refusal::Call { number } => write!(out, "refused {number}"),
            Refusal::Byte { number, list, offset } => write!(out, "refused {number} list {list} byte {offset}"),
            Refusal::Step { number, steps } => write!(out, "refused {number} steps {steps}"),
        }
    }
}

/// The report as the C interface writes it.
#[derive(Default)]
pub(crate) struct Slots {
    pub(crate) numbers: [u64; 11],
    pub(crate) entries: [i32; 8],
}

impl Slots {
    pub(crate) fn report(&self) -> Report {
        Report {
            verdict: self.verdict(),
            exponent: self.number(1),
            steps: self.number(2),
            nodes: self.number(3),
            values: self.number(4),
        }
    }

    fn verdict(&self) -> Verdict {
        match self.numbers[0] {
            0 => Verdict::Equal { factor: self.entry(0) },
            1 => Verdict::Different {
                row: self.number(5),
                column: self.number(6),
                entry: self.entry(0),
                corner: self.entry(4),
            },
            2 => Verdict::Refused(self.refusal()),
            kind => unreachable!("the contract has no report of kind {kind}"),
        }
    }

    fn refusal(&self) -> Refusal {
        match self.number(7) {
            number @ (3..=10 | 17) => Refusal::Byte { number, list: self.number(8), offset: self.number(9) },
            number @ 13..=14 => Refusal::Step { number, steps: self.number(10) },
            number => Refusal::Call { number },
        }
    }

    fn number(&self, slot: usize) -> u32 {
        u32::try_from(self.numbers[slot]).expect("every number of a report is below 2^32")
    }

    fn entry(&self, first: usize) -> Entry {
        let [a, b, c, d] = [0, 1, 2, 3].map(|part| self.entries[first + part]);
        Entry { a, b, c, d }
    }
}
