//! The inverse of a list, against the dense program's: what is returned and every byte of the buffer.

use std::thread;

use gannetrope::{Limits, MOST_GATES, Refusal, Schedule, Verdict, fill_inverse, inverse, judge};

use crate::circuits::{list, longest, random_circuit};
use crate::dense::inverse as dense;
use crate::dense::reader::Circuit;
use crate::groups::random_pairs::random_schedule;
use crate::hex;
use crate::random::Random;
use crate::tally::{Checked, Tally, alike};

/// A buffer this much shorter or longer than the inverse is tried, and every length between.
const AROUND: usize = 4;

/// What the header says is enough stack for a writer.
const STACK: usize = 64 << 10;

/// Gates of a list that, followed by its inverse, has so few H that no number leaves width 32.
const FEW_GATES: usize = 30;

pub fn run(tally: &mut Tally, seed: u64) {
    random_lists(tally, seed);
    damaged_lists(tally, seed);
    followed_lists(tally, seed);
    tally.case("inverse on a short stack", on_a_short_stack);
}

// ---- valid lists

fn random_lists(tally: &mut Tally, seed: u64) {
    for qubits in 1..=16 {
        for gates in [0, 1, 5, 40, 127, 128, 200] {
            let case_seed = seed + 900_000 + 1000 * u64::from(qubits) + gates as u64;
            let name = format!("inverse, {qubits} qubits, {gates} gates, seed {case_seed}");
            tally.case(&name, || check_list(&mut Random::new(case_seed), qubits, gates));
        }
    }
    let most = MOST_GATES as usize;
    tally.case("inverse of the most gates", || check_list(&mut Random::new(seed), 16, most));
}

/// In buffers of many lengths, and twice.
fn check_list(random: &mut Random, qubits: u32, gates: usize) -> Checked {
    let bytes = list(&random_circuit(random, qubits, gates));
    let need = bytes.len();
    let shortest = need.saturating_sub(AROUND);
    for length in (shortest..=need + AROUND).chain([0, 2 * need]) {
        check_in(random, &bytes, length)?;
    }
    let undone = inverse(&bytes).map_err(|refusal| refusal.to_string())?;
    let back = inverse(&undone).map_err(|refusal| refusal.to_string())?;
    alike("twice", hex::encode(&back), hex::encode(&bytes))
}

/// In a buffer of this length, of any contents.
fn check_in(random: &mut Random, bytes: &[u8], length: usize) -> Checked {
    let mut buffer: Vec<u8> = (0..length).map(|_| random.next() as u8).collect();
    let mut expected = buffer.clone();
    let returned = dense::fill_inverse(bytes, &mut expected);
    let found = fill_inverse(bytes, &mut buffer);
    let said = |wrong| format!("{wrong}\n  buffer of {length}, list {}", hex::encode(bytes));
    alike("returned", format!("{found:?}"), format!("{returned:?}")).map_err(said)?;
    alike("buffer", hex::encode(&buffer), hex::encode(&expected)).map_err(said)
}

// ---- others

/// Every prefix of a list, every byte of it changed, and bytes after it.
fn damaged_lists(tally: &mut Tally, seed: u64) {
    let mut random = Random::new(seed);
    let whole = list(&random_circuit(&mut random, 3, 130));
    tally.case(&format!("inverse of every prefix, seed {seed}"), || {
        (0..whole.len()).try_for_each(|length| check_damaged(&mut random, &whole[..length]))
    });
    for byte in [0, 1, 2, 3, 4, 7, 8, 9, 10, 11, 12, 127, 128, 129, 255] {
        let name = format!("inverse, each byte in turn {byte}, seed {seed}");
        tally.case(&name, || check_changed(&mut random, &whole, byte));
    }
    for more in [1, 2, 40_000] {
        let longer = [&whole[..], &vec![0; more]].concat();
        tally.case(&format!("inverse, {more} bytes more"), || check_damaged(&mut random, &longer));
    }
}

fn check_changed(random: &mut Random, whole: &[u8], byte: u8) -> Checked {
    (0..whole.len()).try_for_each(|place| {
        let mut changed = whole.to_vec();
        changed[place] = byte;
        check_damaged(random, &changed)
    })
}

/// Where there is room for an inverse and where there is not: a bad list comes before a short buffer.
fn check_damaged(random: &mut Random, bytes: &[u8]) -> Checked {
    check_in(random, bytes, bytes.len())?;
    check_in(random, bytes, bytes.len() / 2)?;
    let expected = dense::fill_inverse(bytes, &mut vec![0; bytes.len()]).map(|_| ());
    alike("owned", format!("{:?}", inverse(bytes).map(|_| ())), format!("{expected:?}"))
}

// ---- a list followed by its inverse

fn followed_lists(tally: &mut Tally, seed: u64) {
    for qubits in 1..=6 {
        for case in 0..10 {
            let case_seed = seed + 950_000 + 100 * u64::from(qubits) + case;
            let name = format!("followed by its inverse, {qubits} qubits, seed {case_seed}");
            tally.case(&name, || check_followed(&mut Random::new(case_seed), qubits));
        }
    }
}

/// Equal to no gates: at width 32, and along any schedule and at any width unless refused.
fn check_followed(random: &mut Random, qubits: u32) -> Checked {
    let gates = random.below(FEW_GATES);
    let mut circuit = random_circuit(random, qubits, gates);
    let undone = dense::undone(&circuit);
    circuit.gates.extend(undone.gates);
    let (followed, empty) = (list(&circuit), list(&Circuit { qubits, gates: Vec::new() }));

    let wide = judge(&followed, &empty, Schedule::Proportional, Limits::default()).report().verdict;
    let Verdict::Equal { .. } = wide else { return Err(wide.to_string()) };

    let schedule = random_schedule(random, circuit.gates.len(), 0);
    let limits = Limits { width: random.between(2, 16) as u32, ..Limits::default() };
    match judge(&followed, &empty, Schedule::Lent(&schedule), limits).report().verdict {
        Verdict::Equal { .. } | Verdict::Refused(Refusal::Step { .. }) => Ok(()),
        other => Err(other.to_string()),
    }
}

// ---- the stack

fn on_a_short_stack() -> Checked {
    let bytes = list(&longest());
    let length = bytes.len();
    let written = thread::Builder::new()
        .stack_size(STACK)
        .spawn(move || inverse(&bytes).map(|inverse| inverse.len()))
        .map_err(|error| error.to_string())?
        .join()
        .map_err(|_| "it panicked".to_string())?;
    alike("written", format!("{written:?}"), format!("{:?}", Ok::<_, Refusal>(length)))
}
