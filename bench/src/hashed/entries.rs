//! Entries as four wide numbers: times a power of w8, and divided by √2.

use gannetrope::Entry;

pub fn wide(entry: Entry) -> [i64; 4] {
    [entry.a, entry.b, entry.c, entry.d].map(i64::from)
}

/// The numbers as they are if they fit 32 bits.
pub fn narrow(numbers: [i64; 4]) -> Entry {
    let [a, b, c, d] = numbers.map(|number| number as i32);
    Entry { a, b, c, d }
}

/// The product with so high a power of w8.
pub fn times_w8(mut numbers: [i64; 4], power: u8) -> [i64; 4] {
    for _ in 0..power {
        let [a, b, c, d] = numbers;
        numbers = [b, c, d, -a];
    }
    numbers
}

/// Whether the entry is a multiple of √2.
pub fn is_divisible(entry: Entry) -> bool {
    let [a, b, c, d] = wide(entry);
    (a + c) % 2 == 0 && (b + d) % 2 == 0
}

/// A multiple of √2 divided by it: half of the product with √2.
pub fn divided(entry: Entry) -> Entry {
    narrow(times_sqrt2(wide(entry)).map(|number| number / 2))
}

/// The product with √2, which is w8 - w8³.
pub fn times_sqrt2([a, b, c, d]: [i64; 4]) -> [i64; 4] {
    [b - d, a + c, b + d, c - a]
}

#[cfg(test)]
mod tests {
    use super::*;

    const EXTREMES: Entry = Entry::new(i32::MAX, i32::MIN, i32::MIN + 1, i32::MAX - 1);

    #[test]
    fn a_multiple_divides_back() {
        for entry in [Entry::default(), Entry::new(0, 0, 0, 1), Entry::new(3, -4, 5, 7), Entry::new(-1, 2, 0, -6)] {
            let multiple = narrow(times_sqrt2(wide(entry)));
            assert!(is_divisible(multiple));
            assert_eq!(divided(multiple), entry);
        }
    }

    #[test]
    fn a_quotient_multiplies_back() {
        for entry in [Entry::new(0, 0, 0, 2), Entry::new(-1, 0, 1, 0), Entry::new(3, 1, 5, -1), EXTREMES] {
            assert!(is_divisible(entry));
            assert_eq!(times_sqrt2(wide(divided(entry))), wide(entry));
        }
    }

    #[test]
    fn both_sums_must_be_even() {
        for entry in [Entry::new(0, 0, 0, 1), Entry::new(1, 0, 1, 1), Entry::new(1, 2, 2, 4)] {
            assert!(!is_divisible(entry), "{entry}");
        }
    }
}
