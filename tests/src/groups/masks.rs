//! The refusals that masks and their targets bring: each in its order, with its list and offset, and with stores and
//! buffers left alone.

use std::collections::BTreeSet;
use std::ops::RangeInclusive;

use gannetrope::{Refusal, fill_inverse};

use crate::call;
use crate::circuits::write_number;
use crate::dense::inverse;
use crate::dense::matrix::{CODES, FREDKIN, TOFFOLI, targets};
use crate::dense::reader::{Fault, read_list};
use crate::dense::{self, Call, lengths};
use crate::hex;
use crate::random::Random;
use crate::tally::{Checked, Tally, alike};

/// Lists of one gate after `3, 1`, with the refusal's number and offset. The mask is at byte 3, its target at byte 4.
const ORDERS: [(&str, &[u8], u32, usize); 39] = [
    ("no code", &[], 3, 2),
    ("code 12", &[12, 3, 2], 7, 2),
    ("code 138", &[0x8a, 1, 3, 2], 7, 2),
    ("no mask", &[10], 3, 3),
    ("mask cut", &[10, 0x83], 3, 3),
    ("mask cut after two bytes", &[11, 0x81, 0x80], 3, 3),
    ("mask not shortest", &[10, 0x83, 0, 2], 4, 3),
    ("mask of four bytes", &[11, 0x81, 0x80, 0x80, 0, 1, 2], 4, 3),
    ("mask bit at the count", &[10, 0b1011, 2], 8, 3),
    ("mask bit at the count, code 11", &[11, 0b1001, 1, 2], 8, 3),
    ("mask bit past the count", &[11, 0b100001, 1, 2], 8, 3),
    ("mask bit 16", &[10, 0x83, 0x80, 4, 2], 8, 3),
    ("mask bit 20", &[11, 0x81, 0x80, 0x40, 1, 2], 8, 3),
    ("8 on the mask before 17", &[10, 0b1000, 2], 8, 3),
    ("8 on the mask before 17, code 11", &[11, 0x80, 0x80, 4, 1, 2], 8, 3),
    ("8 on the mask before 3 on the target", &[10, 0b1011], 8, 3),
    ("no controls", &[10, 0, 2], 17, 3),
    ("no controls, code 11", &[11, 0, 1, 2], 17, 3),
    ("one control", &[10, 0b001, 2], 17, 3),
    ("one control, the last qubit", &[10, 0b100, 0], 17, 3),
    ("17 before 3 on the target", &[10, 0b010], 17, 3),
    ("17 before 4 on the target", &[11, 0, 0x81, 0, 2], 17, 3),
    ("17 before 8 on the target", &[10, 0b010, 3], 17, 3),
    ("17 before 9 on the target", &[10, 0b010, 1], 17, 3),
    ("no target", &[10, 0b011], 3, 4),
    ("target not shortest", &[10, 0b011, 0x82, 0], 4, 4),
    ("target at the count", &[10, 0b011, 3], 8, 4),
    ("target in the mask", &[10, 0b011, 1], 9, 4),
    ("first target at the count", &[11, 0b001, 3, 3], 8, 4),
    ("first target in the mask", &[11, 0b001, 0, 2], 9, 4),
    ("9 on the first target before 3 on the second", &[11, 0b001, 0], 9, 4),
    ("9 on the first target before 8 on the second", &[11, 0b001, 0, 3], 9, 4),
    ("no second target", &[11, 0b001, 1], 3, 5),
    ("second target not shortest", &[11, 0b001, 1, 0x80, 0x80, 0], 4, 5),
    ("second target at the count", &[11, 0b001, 1, 3], 8, 5),
    ("second target in the mask", &[11, 0b001, 1, 0], 9, 5),
    ("second target is the first", &[11, 0b001, 1, 1], 9, 5),
    ("a second target of code 10", &[10, 0b011, 2, 0], 10, 5),
    ("a third target of code 11", &[11, 0b001, 1, 2, 0], 10, 6),
];

/// Whole lists: one qubit, sixteen qubits with masks of up to three bytes, and a second gate.
const OTHERS: [(&str, &[u8], u32, usize); 13] = [
    ("one qubit, one control", &[1, 1, 10, 1, 0], 17, 3),
    ("one qubit, no control", &[1, 1, 11, 0, 0, 0], 17, 3),
    ("one qubit, mask bit at the count", &[1, 1, 10, 0b11, 0], 8, 3),
    ("one qubit, target in the mask", &[1, 1, 11, 1, 0, 0], 9, 4),
    ("mask of two bytes, one control", &[16, 1, 10, 0x80, 1, 7], 17, 3),
    ("mask of two bytes, target in it", &[16, 1, 11, 0x80, 1, 7, 0], 9, 5),
    ("mask of two bytes, second target in it", &[16, 1, 11, 0x80, 1, 8, 7], 9, 6),
    ("mask of three bytes, one control", &[16, 1, 10, 0x80, 0x80, 2, 0], 17, 3),
    ("mask of three bytes, target in it", &[16, 1, 11, 0x80, 0x80, 2, 15, 0], 9, 6),
    ("mask of three bytes, second target the first", &[16, 1, 11, 0x80, 0x80, 2, 14, 14], 9, 7),
    ("mask of all qubits", &[16, 1, 10, 0xff, 0xff, 3, 0], 9, 6),
    ("mask of 65,536", &[16, 1, 11, 0x80, 0x80, 4, 0, 1], 8, 3),
    ("in the second gate", &[3, 2, 8, 0, 1, 10, 0b001, 2], 17, 6),
];

/// The numbers of qubits for which every mask and target is tried, past the qubit count too.
const FEW: RangeInclusive<u32> = 2..=4;

/// What any gate with a mask names.
const LEAST_QUBITS: u32 = 3;

/// Qubits whose masks take up to three bytes.
const MANY: u32 = 16;

/// The masks of one, two and three bytes, and those that name no qubit of sixteen.
const MASKS: [(&str, RangeInclusive<usize>); 4] = [
    ("of one byte", 0..=0x7f),
    ("of two bytes", 0x80..=0x3fff),
    ("of three bytes", 0x4000..=0xffff),
    ("of 65,536 and more", 0x1_0000..=0x1f_ffff),
];

/// Random lists for each kind of mask.
const LISTS: usize = 400;

/// The sizes of the stores; no call here comes to a run.
const NODES: usize = 48;
const VALUES: usize = 4;

const DIRT: u32 = 17;

pub fn run(tally: &mut Tally, seed: u64) {
    for (name, list, number, offset) in faults() {
        tally.case(&format!("masks, {name}"), || check_fault(&list, number, offset));
    }
    calls(tally);
    few_qubits(tally);
    long_masks(tally, seed);
}

/// The lists of both tables.
pub fn faulty_lists() -> impl Iterator<Item = Vec<u8>> {
    faults().map(|(_, list, ..)| list)
}

fn faults() -> impl Iterator<Item = (&'static str, Vec<u8>, u32, usize)> {
    let orders =
        ORDERS.into_iter().map(|(name, gate, number, offset)| (name, [&[3, 1], gate].concat(), number, offset));
    orders.chain(OTHERS.into_iter().map(|(name, list, number, offset)| (name, list.to_vec(), number, offset)))
}

// ---- one list

/// The dense program gives this fault, and the library what the dense program gives.
fn check_fault(list: &[u8], number: u32, offset: usize) -> Checked {
    let found = read_list(list).err();
    alike("dense program", format!("{found:?}"), format!("{:?}", Some(Fault { number, offset })))?;
    check(list)
}

/// As list 1, as list 2, before another bad list, and as the list to be inverted.
fn check(list: &[u8]) -> Checked {
    let good = [list[0], 0];
    let bad = [17];
    for (list1, list2) in [(list, &good[..]), (&good, list), (list, &bad)] {
        let call = call(list1, list2);
        call::check(&call, DIRT, &dense::judge(&call))?;
    }
    check_inverse(list, list.len())?;
    check_inverse(list, list.len() - 1)
}

/// A call whose schedule does not fit unless both lists are empty: no full matrix is made.
fn call(list1: &[u8], list2: &[u8]) -> Call {
    let store = lengths(NODES, VALUES);
    Call { list1: list1.to_vec(), list2: list2.to_vec(), schedule: Vec::new(), w: 32, first: store, second: store }
}

fn check_inverse(list: &[u8], length: usize) -> Checked {
    let (mut buffer, mut expected) = (vec![9; length], vec![9; length]);
    let returned = inverse::fill_inverse(list, &mut expected);
    let found = fill_inverse(list, &mut buffer);
    let said = |wrong| format!("{wrong}\n  buffer of {length}, list {}", hex::encode(list));
    alike("returned", format!("{found:?}"), format!("{returned:?}")).map_err(said)?;
    alike("buffer", hex::encode(&buffer), hex::encode(&expected)).map_err(said)
}

// ---- 17 among the refusals of a call

/// 1 and 2 come before it; a short buffer, other counts and a schedule that does not fit come after it.
fn calls(tally: &mut Tally) {
    let few: [u8; 5] = [3, 1, 10, 0b001, 2];
    let call = Call { schedule: vec![2], ..call(&few, &[4, 0]) };
    let narrow = Call { w: 1, ..call.clone() };
    let columns = Call { second: lengths(NODES, VALUES + 1), ..call.clone() };
    let in_list2 = Call { list1: vec![4, 0], list2: few.to_vec(), ..call.clone() };
    for (name, call, line) in [
        ("1 before 17", narrow, "refused 1"),
        ("2 before 17", columns, "refused 2"),
        ("17 before 11 and 12", call, "refused 17 list 1 byte 3"),
        ("17 in list 2 before 11 and 12", in_list2, "refused 17 list 2 byte 3"),
    ] {
        tally.case(name, || {
            let expected = dense::judge(&call);
            alike("dense program", expected.report.to_string(), line.to_string())?;
            call::check(&call, DIRT, &expected)
        });
    }
    tally.case("17 before 16", || {
        let expected = Refusal::Byte { number: 17, list: 1, offset: 3 };
        alike("returned", format!("{:?}", fill_inverse(&few, &mut [])), format!("{:?}", Err::<usize, _>(expected)))
    });
}

// ---- many lists

/// What a list of one gate came to: the refusal, and which of the gate's numbers it names, the code being the first.
type Kind = Option<(u32, usize)>;

const CODE: usize = 0;
const MASK: usize = 1;
const FIRST: usize = 2;
const SECOND: usize = 3;

const PAST: Kind = Some((8, MASK));
const TOO_FEW: Kind = Some((17, MASK));

/// A list of one gate, held to the dense program.
fn kind(qubits: u32, numbers: &[u32]) -> Result<Kind, String> {
    let mut list = vec![qubits as u8, 1];
    let mut offsets = Vec::new();
    for &number in numbers {
        offsets.push(list.len());
        write_number(&mut list, number);
    }
    check(&list)?;
    let named = |offset| offsets.iter().position(|&at| at == offset).expect("an offset of a number");
    Ok(read_list(&list).err().map(|fault| (fault.number, named(fault.offset))))
}

/// All that a gate of this code can come to.
fn kinds(code: u32) -> BTreeSet<Kind> {
    let of_toffoli = [None, PAST, TOO_FEW, Some((8, FIRST)), Some((9, FIRST))];
    match code {
        TOFFOLI => of_toffoli.into(),
        FREDKIN => of_toffoli.into_iter().chain([Some((8, SECOND)), Some((9, SECOND))]).collect(),
        _ => [Some((7, CODE))].into(),
    }
}

fn same_kinds(found: &BTreeSet<Kind>, expected: &BTreeSet<Kind>) -> Checked {
    alike("kinds met", format!("{found:?}"), format!("{expected:?}"))
}

/// Every mask up to two bits past the count, every target up to the count.
fn few_qubits(tally: &mut Tally) {
    for qubits in FEW {
        for code in TOFFOLI..=CODES {
            let name = format!("masks, code {code}, every number, {qubits} qubits");
            tally.case(&name, || check_every(qubits, code));
        }
    }
}

fn check_every(qubits: u32, code: u32) -> Checked {
    let mut found = BTreeSet::new();
    for mask in 0..4 << qubits {
        for all in every_target(qubits, targets(code)) {
            found.insert(kind(qubits, &[&[code, mask], &all[..]].concat())?);
        }
    }
    let is_possible = |kind: &Kind| kind.is_some() || qubits >= LEAST_QUBITS;
    same_kinds(&found, &kinds(code).into_iter().filter(is_possible).collect())
}

fn every_target(qubits: u32, targets: usize) -> Vec<Vec<u32>> {
    let pairs = (0..=qubits).flat_map(|first| (0..=qubits).map(move |second| vec![first, second]));
    if targets == 2 { pairs.collect() } else { (0..=qubits).map(|first| vec![first]).collect() }
}

/// Sixteen qubits, so that masks take up to three bytes.
fn long_masks(tally: &mut Tally, seed: u64) {
    for (name, masks) in MASKS {
        for code in [TOFFOLI, FREDKIN] {
            let name = format!("masks {name}, code {code}, seed {seed}");
            tally.case(&name, || check_long(&mut Random::new(seed), code, &masks));
        }
    }
}

fn check_long(random: &mut Random, code: u32, masks: &RangeInclusive<usize>) -> Checked {
    let mut found = BTreeSet::new();
    for _ in 0..LISTS {
        let mask = random_mask(random, masks);
        let targets = (0..targets(code)).map(|_| random.below(MANY as usize + 2) as u32);
        let numbers: Vec<u32> = [code, mask].into_iter().chain(targets).collect();
        found.insert(kind(MANY, &numbers)?);
    }
    let is_past = *masks.start() >= 1 << MANY;
    let is_possible = |kind: &Kind| match *kind {
        PAST => is_past,
        // a Fredkin gate has too few controls only if it has none
        TOO_FEW => !is_past && (code == TOFFOLI || masks.contains(&0)),
        _ => !is_past,
    };
    same_kinds(&found, &kinds(code).into_iter().filter(is_possible).collect())
}

/// The least of the masks, one of any, or that with its highest bit alone.
fn random_mask(random: &mut Random, masks: &RangeInclusive<usize>) -> u32 {
    let any = random.between(*masks.start(), *masks.end());
    let mask = match random.below(3) {
        0 => *masks.start(),
        1 => any.checked_ilog2().map_or(0, |highest| 1 << highest),
        _ => any,
    };
    mask as u32
}
