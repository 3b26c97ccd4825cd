//! The paper's circuits to try.

use super::entries::{times_sqrt2, wide};
use super::*;
use crate::families::random_list;
use crate::lent::LARGEST;
use crate::random::Random;
use gannetrope::Entry;

const X: u8 = 0;
const Y: u8 = 1;
const Z: u8 = 2;
const H: u8 = 3;
const S: u8 = 4;
const T: u8 = 6;

/// Two lists judged, with all of the first taken before the second.
fn judged(first: &[u8], second: &[u8], limits: Limits, exponents: Exponents) -> Judged {
    let steps = |list: &[u8], byte: u8| vec![byte; Circuit::decode(list).unwrap().gates.len()];
    let schedule = [steps(first, 0), steps(second, 1)].concat();
    judge(first, second, &schedule, limits, exponents)
}

fn line(first: &[u8], second: &[u8], limits: Limits) -> String {
    judged(first, second, limits, Exponents::Lowered).report.to_string()
}

/// A list of gates on the one qubit.
fn one_qubit(codes: &[u8]) -> Vec<u8> {
    let mut list = vec![1, codes.len() as u8];
    list.extend(codes.iter().flat_map(|&code| [code, 0]));
    list
}

fn one_qubit_line(first: &[u8], second: &[u8], limits: Limits) -> String {
    line(&one_qubit(first), &one_qubit(second), limits)
}

fn width(width: u32) -> Limits {
    Limits { width, ..LARGEST }
}

fn sizes(nodes: usize, values: usize) -> Limits {
    Limits { nodes, values, ..LARGEST }
}

#[test]
fn small_pairs() {
    for (first, second, expected) in [
        (&[][..], &[][..], "equal factor 0 0 0 1 exponent 0 steps 0 nodes 3 values 2"),
        (&[H, H], &[], "equal factor 0 0 0 1 exponent 0 steps 2 nodes 3 values 2"),
        (&[H], &[], "different row 0 column 1 entry 0 0 0 1 corner 0 0 0 1 exponent 1 steps 1 nodes 2 values 2"),
        (&[X], &[], "different row 0 column 1 entry 0 0 0 1 corner 0 0 0 0 exponent 0 steps 1 nodes 3 values 2"),
        (&[T], &[S], "different row 1 column 1 entry -1 0 0 0 corner 0 0 0 1 exponent 0 steps 2 nodes 3 values 3"),
        (&[X, Z], &[Z, X], "equal factor 0 0 0 -1 exponent 0 steps 4 nodes 3 values 2"),
        (&[Y], &[Z, X], "equal factor 0 1 0 0 exponent 0 steps 3 nodes 3 values 2"),
        (&[Z, X], &[Y], "equal factor 0 -1 0 0 exponent 0 steps 3 nodes 3 values 2"),
    ] {
        assert_eq!(one_qubit_line(first, second, LARGEST), expected);
    }
}

#[test]
fn two_qubits() {
    let cnot = [2, 1, 8, 0, 1];
    assert_eq!(
        line(&cnot, &[2, 3, 3, 1, 9, 0, 1, 3, 1], LARGEST),
        "equal factor 0 0 0 1 exponent 0 steps 4 nodes 6 values 2"
    );
    assert_eq!(
        line(&cnot, &[2, 1, 8, 1, 0], LARGEST),
        "different row 1 column 1 entry 0 0 0 0 corner 0 0 0 1 exponent 0 steps 2 nodes 9 values 2"
    );
}

/// Three qubits: qubit 0 is the highest bit of a row.
#[test]
fn masks() {
    assert_eq!(
        line(&[3, 1, 10, 0b011, 2], &[3, 0], LARGEST),
        "different row 6 column 6 entry 0 0 0 0 corner 0 0 0 1 exponent 0 steps 1 nodes 12 values 2"
    );
    assert_eq!(
        line(&[3, 1, 11, 0b001, 1, 2], &[3, 0], LARGEST),
        "different row 5 column 5 entry 0 0 0 0 corner 0 0 0 1 exponent 0 steps 1 nodes 16 values 2"
    );
    assert_eq!(
        line(&[3, 1, 11, 0b001, 1, 2], &[3, 3, 8, 1, 2, 10, 0b101, 1, 8, 1, 2], LARGEST),
        "equal factor 0 0 0 1 exponent 0 steps 4 nodes 9 values 2"
    );
}

/// The width is asked of the product before it is divided.
#[test]
fn widths() {
    assert_eq!(one_qubit_line(&[H, H], &[], width(2)), "refused 13 steps 1");
    assert_eq!(one_qubit_line(&[H, H], &[], width(3)), "equal factor 0 0 0 1 exponent 0 steps 2 nodes 3 values 2");
    assert_eq!(
        one_qubit_line(&[X, Z, X, Z, H, H], &[], width(2)),
        "equal factor 0 0 0 -1 exponent 0 steps 6 nodes 3 values 2"
    );
    assert_eq!(
        one_qubit_line(&[X, Z, X, Z, H, H, Z], &[], width(2)),
        "different row 1 column 1 entry 0 0 0 1 corner 0 0 0 -1 exponent 0 steps 7 nodes 3 values 3"
    );
}

#[test]
fn many_h_gates() {
    let even = "equal factor 0 0 0 1 exponent 0 steps 62 nodes 3 values 2";
    assert_eq!(one_qubit_line(&[H; 62], &[], LARGEST), even);
    let odd = "different row 0 column 1 entry 0 0 0 1 corner 0 0 0 1 exponent 1 steps 63 nodes 2 values 2";
    assert_eq!(one_qubit_line(&[H; 63], &[], LARGEST), odd);
}

/// As it was before exponents were lowered.
#[test]
fn kept_exponents() {
    for (gates, width_bits, expected) in [
        (&[H; 2][..], 2, "refused 13 steps 1"),
        (&[H; 2], 3, "equal factor 0 0 0 2 exponent 2 steps 2 nodes 3 values 2"),
        (&[X, Z, X, Z, H, H], 2, "equal factor 0 0 0 -2 exponent 2 steps 6 nodes 3 values 2"),
        (&[X, Z, X, Z, H, H, Z], 2, "refused 13 steps 6"),
        (&[H; 60], 32, "equal factor 0 0 0 1073741824 exponent 60 steps 60 nodes 3 values 2"),
        (&[H; 62], 32, "refused 13 steps 61"),
    ] {
        let judged = judged(&one_qubit(gates), &one_qubit(&[]), width(width_bits), Exponents::Kept);
        assert_eq!(judged.report.to_string(), expected);
    }
}

/// No run comes to such a diagram: with exponent 0 a row has norm 1.
#[test]
fn exponent_0_is_never_lowered() {
    let mut run = Run::new(1, LARGEST, Exponents::Lowered);
    run.builder.value(Entry::new(0, 0, 0, 2));
    run.lower();
    assert_eq!((run.exponent, run.builder.diagram.values[0]), (0, Entry::new(0, 0, 0, 2)));
    run.exponent = 1;
    run.lower();
    assert_eq!((run.exponent, run.builder.diagram.values[0]), (0, Entry::new(-1, 0, 1, 0)));
}

#[test]
fn one_odd_entry_keeps_the_exponent() {
    let mut run = Run::new(1, LARGEST, Exponents::Lowered);
    run.exponent = 2;
    let entries = [Entry::new(0, 0, 0, 2), Entry::new(0, 0, 0, 1)];
    for entry in entries {
        run.builder.value(entry);
    }
    run.lower();
    assert_eq!((run.exponent, &run.builder.diagram.values[..]), (2, &entries[..]));
}

/// The nodes stay, and every kept entry is the lowered one times the powers of √2 that were taken from the exponent.
#[test]
fn lowering_only_divides() {
    for seed in 0..50 {
        let random = &mut Random::new(seed);
        let [first, second] = [20, 21].map(|count| random_list(3, count, Code::UNMASKED, random).encode());
        let [kept, lowered] =
            [Exponents::Kept, Exponents::Lowered].map(|exponents| judged(&first, &second, LARGEST, exponents));
        let taken = kept.report.exponent - lowered.report.exponent;
        let raised = |&value: &Entry| (0..taken).fold(wide(value), |numbers, _| times_sqrt2(numbers));
        assert_eq!(kept.diagram.nodes, lowered.diagram.nodes);
        assert!(kept.diagram.values.iter().copied().map(wide).eq(lowered.diagram.values.iter().map(raised)));
        let is_least = lowered.report.exponent == 0 || !lowered.diagram.clone().divide();
        assert!(is_least, "seed {seed}");
    }
}

#[test]
fn store_sizes() {
    assert_eq!(one_qubit_line(&[], &[], sizes(2, 2)), "refused 14 steps 0");
    assert_eq!(one_qubit_line(&[T], &[], sizes(3, 2)), "refused 14 steps 0");
    for (first, limits) in [(&[][..], sizes(3, 2)), (&[H, H], sizes(3, 3)), (&[T], sizes(3, 3))] {
        assert!(!one_qubit_line(first, &[], limits).starts_with("refused"));
    }
}
