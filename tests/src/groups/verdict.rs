//! The verdict program: random and damaged inputs, long ones, slow ones, and bad files.

use std::os::unix::process::ExitStatusExt;
use std::process::ExitStatus;

use crate::circuits::{list, longest, on_one_qubit, program_input, random_circuit, write_number};
use crate::dense::matrix::H;
use crate::dense::{MOST_READ, verdict_line};
use crate::groups::masks::faulty_lists;
use crate::groups::random_pairs::random_pair;
use crate::program::Program;
use crate::random::Random;
use crate::tally::{Checked, Tally, alike};

const SIGPIPE: i32 = 13;

pub fn run(tally: &mut Tally, program: &Program, seed: u64) {
    random_inputs(tally, program, seed);
    damaged_inputs(tally, program, seed);
    slow_inputs(tally, program, seed);
    long_inputs(tally, program);
    bad_inputs(tally, program);
    bad_outputs(tally, program);
}

fn check(program: &Program, input: &[u8]) -> Checked {
    program.check(input, &verdict_line(input))
}

fn random_inputs(tally: &mut Tally, program: &Program, seed: u64) {
    for qubits in 1..=6 {
        for pair in 0..20 {
            let pair_seed = seed + 900_000 + 1000 * u64::from(qubits) + pair;
            let (u, v) = random_pair(&mut Random::new(pair_seed), qubits, 24);
            let name = format!("program, {qubits} qubits, seed {pair_seed}");
            tally.case(&name, || check(program, &program_input(&list(&u), &list(&v))));
        }
    }
}

/// All damages of a kind are one case.
fn damaged_inputs(tally: &mut Tally, program: &Program, seed: u64) {
    let mut random = Random::new(seed);
    let (u, v) = (random_circuit(&mut random, 3, 8), random_circuit(&mut random, 3, 6));
    let whole = program_input(&list(&u), &list(&v));
    let prefixes = (0..whole.len()).map(|length| whole[..length].to_vec());
    tally.case(&format!("program, prefixes, seed {seed}"), || check_all(program, prefixes));
    for place in 0..whole.len() {
        let changed = [0, 1, 2, 3, 8, 9, 10, 11, 12, 16, 17, 127, 128, 255].map(|byte| {
            let mut damaged = whole.clone();
            damaged[place] = byte;
            damaged
        });
        tally.case(&format!("program, byte {place} changed, seed {seed}"), || check_all(program, changed));
    }
    let with_faults = faulty_lists().flat_map(|list| [program_input(&list, &[3, 0]), program_input(&[3, 0], &list)]);
    tally.case("program, lists with bad masks", || check_all(program, with_faults));
    let lengths: [&[u8]; 6] =
        [&[0x80], &[0x80, 0x80], &[0x80, 0x80, 0x80], &[0x80, 0], &[0x81, 0x80, 0], &[0xff, 0xff, 0x7f]];
    for length in lengths {
        let damaged = [length, &whole[1..]].concat();
        let name = format!("program, length {}", crate::hex::encode(length));
        tally.case(&name, || check_all(program, [length.to_vec(), damaged]));
    }
}

fn check_all(program: &Program, inputs: impl IntoIterator<Item = Vec<u8>>) -> Checked {
    inputs.into_iter().try_for_each(|input| check(program, &input))
}

/// Reads that bring a part only must not be taken for the end.
fn slow_inputs(tally: &mut Tally, program: &Program, seed: u64) {
    let mut random = Random::new(seed);
    let (u, v) = (random_circuit(&mut random, 3, 20), random_circuit(&mut random, 3, 20));
    let short = program_input(&list(&u), &list(&v));
    for piece in [1, 2, 7] {
        let name = format!("program, pieces of {piece}, seed {seed}");
        tally.case(&name, || program.check_in_pieces(&short, piece, &verdict_line(&short)));
    }
    let long = padded(MOST_READ + 9000);
    for piece in [1000, 4096, MOST_READ - 1] {
        let name = format!("program, long input in pieces of {piece}");
        tally.case(&name, || program.check_in_pieces(&long, piece, &verdict_line(&long)));
    }
}

/// Two valid lists and zeros after them.
fn padded(length: usize) -> Vec<u8> {
    let mut input = program_input(&list(&on_one_qubit(&[H, H])), &list(&on_one_qubit(&[])));
    input.resize(length, 0);
    input
}

/// An input of this many bytes whose first list has a declared length.
fn declared(list1_length: u32, input_length: usize) -> Vec<u8> {
    let mut input = Vec::new();
    write_number(&mut input, list1_length);
    input.extend_from_slice(&list(&on_one_qubit(&[H, H])));
    input.resize(input_length, 0);
    input
}

fn long_inputs(tally: &mut Tally, program: &Program) {
    let left = MOST_READ as u32 - 3;
    let cases = [
        ("of 57,343 bytes", padded(57_343), "refused 10 list 2 byte 2\n"),
        ("of 57,344 bytes", padded(57_344), "refused 10 list 2 byte 2\n"),
        ("of 57,345 bytes", padded(57_345), "refused 10 list 2 byte 2\n"),
        ("of 100,000 bytes", padded(100_000), "refused 10 list 2 byte 2\n"),
        ("with a list to its last byte", declared(left, MOST_READ), "refused 10 list 1 byte 6\n"),
        ("with a list past its last byte", declared(left, MOST_READ - 1), "refused 3 list 0 byte 0\n"),
        ("with a list to the last byte read", declared(left, MOST_READ + 500), "refused 10 list 1 byte 6\n"),
        ("with a list past the last byte read", declared(left + 1, MOST_READ + 500), "refused 3 list 0 byte 0\n"),
        ("with the longest length", declared((1 << 21) - 1, 3_000_000), "refused 3 list 0 byte 0\n"),
    ];
    for (name, input, line) in cases {
        let checked =
            alike("dense program", &verdict_line(&input)[..], line).and_then(|()| program.check(&input, line));
        tally.case(&format!("program, input {name}"), || checked);
    }
    let longest = on_one_qubit(&[2; 4096]);
    let input = program_input(&list(&longest), &list(&longest));
    tally.case("program, two lists of 4,096 gates", || check(program, &input));
    tally.case("program, the two longest lists", || check_longest(program));
}

fn check_longest(program: &Program) -> Checked {
    let longest = list(&longest());
    alike("bytes of a list", longest.len(), 24_579)?;
    let line = "equal factor 0 0 0 1 exponent 0 steps 8192 nodes 48 values 2\n";
    program.check(&program_input(&longest, &longest), line)
}

/// An input that cannot be read is like an empty one.
fn bad_inputs(tally: &mut Tally, program: &Program) {
    for (name, redirection) in [("empty", "</dev/null"), ("closed", "<&-"), ("a directory", "</")] {
        let checked = program
            .run_redirected(redirection)
            .and_then(|ended| alike("line", &ended.output[..], "refused 3 list 0 byte 0\n"));
        tally.case(&format!("program, input {name}"), || checked);
    }
}

/// An output that takes nothing ends the program in an orderly way.
fn bad_outputs(tally: &mut Tally, program: &Program) {
    for (name, redirection) in [("closed", ">&-"), ("full", ">/dev/full"), ("read-only", "1</dev/null")] {
        let checked = program.run_redirected(redirection).and_then(|ended| orderly(ended.status));
        tally.case(&format!("program, output {name}"), || checked);
    }
    tally.case("program, output unread", || program.run_unread().and_then(orderly));
}

/// It exited, or was told by the system that nobody reads.
fn orderly(status: ExitStatus) -> Checked {
    match (status.code(), status.signal()) {
        (Some(_), _) | (_, Some(SIGPIPE)) => Ok(()),
        _ => Err(format!("ended with {status}")),
    }
}
