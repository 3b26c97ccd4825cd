//! Entries: a·w³ + b·w² + c·w + d with w the eighth root of unity, over whole numbers that never wrap.
//!
//! The squares of the numbers in a row add up to 2^k. A run stops at the first number that 32 bits do not hold, and
//! lists that are multiplied without dividing have few H. So no number met here comes near the end of an i128; if one
//! did, the arithmetic would stop the test.

use std::ops::{Add, Mul, Neg};

/// The numbers before w⁰, w¹, w² and w³, in this order.
#[derive(Clone, Copy, Debug, PartialEq, Eq, Hash)]
pub struct Entry([i128; 4]);

pub const ZERO: Entry = Entry([0; 4]);
pub const ONE: Entry = Entry([1, 0, 0, 0]);

/// √2 is w − w³.
pub const ROOT_2: Entry = Entry([0, 1, 0, -1]);

impl Entry {
    /// w to this power.
    pub fn root(power: usize) -> Entry {
        let mut numbers = [0; 4];
        numbers[power % 4] = if power % 8 < 4 { 1 } else { -1 };
        Entry(numbers)
    }

    pub fn whole(number: i128) -> Entry {
        Entry([number, 0, 0, 0])
    }

    pub fn is_zero(&self) -> bool {
        *self == ZERO
    }

    /// The four numbers.
    pub fn numbers(&self) -> [i128; 4] {
        self.0
    }

    /// The entry that times √2 is this one, if there is one: half of this one times √2.
    pub fn over_root_2(&self) -> Option<Entry> {
        let double = *self * ROOT_2;
        double.0.iter().all(|number| number % 2 == 0).then(|| Entry(double.0.map(|number| number / 2)))
    }

    /// The least width in bits that holds all four numbers.
    pub fn width(&self) -> u32 {
        self.0.iter().map(|&number| width(number)).max().expect("four numbers")
    }

    /// The entry as reports and stores have it.
    pub fn narrow(&self) -> gannetrope::Entry {
        let [d, c, b, a] = self.0.map(|number| i32::try_from(number).expect("a number within the width"));
        gannetrope::Entry { a, b, c, d }
    }
}

/// The least w with −2^(w−1) ≤ number ≤ 2^(w−1) − 1.
fn width(number: i128) -> u32 {
    let magnitude = if number < 0 { !number } else { number };
    i128::BITS - magnitude.leading_zeros() + 1
}

impl Add for Entry {
    type Output = Entry;
    fn add(self, other: Entry) -> Entry {
        Entry(std::array::from_fn(|power| self.0[power] + other.0[power]))
    }
}

impl Neg for Entry {
    type Output = Entry;
    fn neg(self) -> Entry {
        Entry(self.0.map(|number| -number))
    }
}

impl Mul for Entry {
    type Output = Entry;
    fn mul(self, other: Entry) -> Entry {
        let mut product = [0; 4];
        for (i, x) in self.0.iter().enumerate().filter(|(_, x)| **x != 0) {
            for (j, y) in other.0.iter().enumerate() {
                // w⁴ is −1
                let sign = if i + j < 4 { 1 } else { -1 };
                product[(i + j) % 4] += sign * x * y;
            }
        }
        Entry(product)
    }
}

impl From<gannetrope::Entry> for Entry {
    fn from(entry: gannetrope::Entry) -> Entry {
        Entry([entry.d, entry.c, entry.b, entry.a].map(i128::from))
    }
}
