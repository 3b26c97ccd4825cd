//! Damaged lists: every prefix, many changes of a byte or a number, bytes put in and taken out.

use std::collections::BTreeSet;

use gannetrope::{Refusal, Verdict};

use crate::call;
use crate::circuits::{list, random_circuit, write_number};
use crate::dense::miter::MOST_QUBITS;
use crate::dense::reader::read_number;
use crate::dense::{self, Call, lengths, proportional};
use crate::random::Random;
use crate::tally::{Checked, Tally, alike};

/// The pairs: qubits, and the gates of each list. The last ones have a gate count of two bytes.
const PAIRS: [(u32, usize, usize); 9] =
    [(1, 0, 0), (1, 3, 2), (2, 4, 3), (3, 5, 5), (4, 12, 9), (16, 6, 5), (16, 14, 12), (1, 130, 1), (2, 2, 128)];

/// What the bytes of a long list are changed to; those of a short one take every value.
const TELLING: [u8; 20] = [0, 1, 2, 3, 4, 7, 8, 9, 10, 11, 12, 15, 16, 17, 32, 127, 128, 129, 144, 255];

/// What a list's numbers are changed to: masks of many lengths, qubits, counts.
const TELLING_NUMBERS: [u32; 19] =
    [0, 1, 2, 3, 5, 6, 7, 8, 11, 14, 15, 16, 127, 128, 0x3fff, 0x4000, 0xffff, 0x1_0000, 0x1f_ffff];

/// All that a damaged list is refused with.
const REFUSALS: [u32; 9] = [3, 4, 5, 6, 7, 8, 9, 10, 17];

pub fn run(tally: &mut Tally, seed: u64) {
    let mut random = Random::new(seed);
    let mut met = BTreeSet::new();
    for (qubits, m, p) in PAIRS {
        let (u, v) = (random_circuit(&mut random, qubits, m), random_circuit(&mut random, qubits, p));
        // no full matrix is made of many qubits: a schedule that does not fit ends such a call after both lists are read
        let schedule = if qubits > MOST_QUBITS { Vec::new() } else { proportional(m, p) };
        let call =
            Call { list1: list(&u), list2: list(&v), schedule, w: 32, first: lengths(48, 24), second: lengths(48, 24) };
        let name = format!("{qubits} qubits, {m} and {p} gates, seed {seed}");
        damage(tally, &name, &call, 1, &mut met);
        damage(tally, &name, &call, 2, &mut met);
    }
    tally.case("refusals met", || alike("numbers", format!("{met:?}"), format!("{:?}", BTreeSet::from(REFUSALS))));
}

/// All damages of one kind to one list are one case.
fn damage(tally: &mut Tally, name: &str, call: &Call, number: u32, met: &mut BTreeSet<u32>) {
    let whole = if number == 1 { &call.list1 } else { &call.list2 };
    let kinds = [
        ("prefixes", prefixes(whole)),
        ("changes", changes(whole)),
        ("other numbers", renumberings(whole)),
        ("insertions", insertions(whole)),
        ("removals", removals(whole)),
    ];
    for (kind, damaged) in kinds {
        let checked = damaged.into_iter().try_for_each(|list| check(call, number, list, met));
        tally.case(&format!("{kind} of list {number}, {name}"), || checked);
    }
}

fn check(call: &Call, number: u32, list: Vec<u8>, met: &mut BTreeSet<u32>) -> Checked {
    let mut call = call.clone();
    if number == 1 {
        call.list1 = list;
    } else {
        call.list2 = list;
    }
    let expected = dense::judge(&call);
    if let Verdict::Refused(Refusal::Byte { number, .. }) = expected.report.verdict {
        met.insert(number);
    }
    call::check(&call, 5, &expected)
}

fn prefixes(list: &[u8]) -> Vec<Vec<u8>> {
    (0..list.len()).map(|length| list[..length].to_vec()).collect()
}

fn changes(list: &[u8]) -> Vec<Vec<u8>> {
    let all: Vec<u8> = (0..=255).collect();
    let bytes = if list.len() < 24 { &all[..] } else { &TELLING[..] };
    let places = (0..list.len()).flat_map(|place| bytes.iter().map(move |&byte| (place, byte)));
    places.filter(|&(place, byte)| list[place] != byte).map(|(place, byte)| changed(list, place, byte)).collect()
}

fn changed(list: &[u8], place: usize, byte: u8) -> Vec<u8> {
    let mut damaged = list.to_vec();
    damaged[place] = byte;
    damaged
}

/// Each number in turn by others, all of them in their shortest form.
fn renumberings(list: &[u8]) -> Vec<Vec<u8>> {
    let numbers = numbers(list);
    let places = (0..numbers.len()).flat_map(|place| TELLING_NUMBERS.map(|number| (place, number)));
    places.map(|(place, number)| written([&numbers[..place], &[number], &numbers[place + 1..]].concat())).collect()
}

/// The numbers of a valid list.
fn numbers(mut list: &[u8]) -> Vec<u32> {
    let mut numbers = Vec::new();
    while !list.is_empty() {
        let (number, length) = read_number(list).expect("a number");
        numbers.push(number);
        list = &list[length..];
    }
    numbers
}

fn written(numbers: Vec<u32>) -> Vec<u8> {
    let mut list = Vec::new();
    numbers.into_iter().for_each(|number| write_number(&mut list, number));
    list
}

fn insertions(list: &[u8]) -> Vec<Vec<u8>> {
    let places = (0..=list.len()).flat_map(|place| TELLING.map(|byte| (place, byte)));
    places.map(|(place, byte)| [&list[..place], &[byte], &list[place..]].concat()).collect()
}

fn removals(list: &[u8]) -> Vec<Vec<u8>> {
    (0..list.len()).map(|place| [&list[..place], &list[place + 1..]].concat()).collect()
}
