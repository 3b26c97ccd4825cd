//! The safe function that owns its stores, and the schedule maker.

use std::thread;

use gannetrope::{Limits, Refusal, Schedule, Verdict, fill_proportional, judge, proportional};

use crate::circuits::list;
use crate::dense::{self, Call, Stores, lengths};
use crate::groups::random_pairs::{random_pair, random_schedule};
use crate::random::Random;
use crate::tally::{Checked, Tally, alike};

/// Every schedule of up to so many gates in each list is looked at.
const FEW_GATES: usize = 20;

pub fn run(tally: &mut Tally, seed: u64) {
    for qubits in 1..=4 {
        for pair in 0..10 {
            let pair_seed = seed + 700_000 + 1000 * u64::from(qubits) + pair;
            let name = format!("judge, {qubits} qubits, seed {pair_seed}");
            tally.case(&name, || check_judge(&mut Random::new(pair_seed), qubits));
        }
    }
    refused_limits(tally);
    unreadable_lists(tally);
    tally.case("judge on a short stack", on_a_short_stack);
    schedules(tally);
}

/// A pair by both kinds of schedule, with the diagram.
fn check_judge(random: &mut Random, qubits: u32) -> Checked {
    let (u, v) = random_pair(random, qubits, 20);
    let (m, p) = (u.gates.len(), v.gates.len());
    let limits = Limits { width: 32, nodes: random.between(10, 400), values: random.between(2, 60) };
    let lent = random_schedule(random, m, p);
    let proportional = dense::proportional(m, p);
    for (schedule, as_lent) in [(Schedule::Lent(&lent), &lent), (Schedule::Proportional, &proportional)] {
        let judged = judge(&list(&u), &list(&v), schedule, limits);
        let store = lengths(limits.nodes, limits.values);
        let expected = dense::judge(&Call {
            list1: list(&u),
            list2: list(&v),
            schedule: as_lent.clone(),
            w: limits.width,
            first: store,
            second: store,
        });
        alike("report", judged.report(), expected.report)?;
        let (nodes, values) = match expected.stores {
            Stores::Diagram(diagram) => (diagram.nodes, diagram.values),
            _ => (Vec::new(), Vec::new()),
        };
        if !judged.nodes().eq(nodes) || !judged.values().eq(values.iter().map(|value| value.narrow())) {
            return Err(format!("{:?} holds {:?}", judged.report(), judged.nodes().collect::<Vec<_>>()));
        }
    }
    Ok(())
}

fn refused_limits(tally: &mut Tally) {
    let fine = Limits::default();
    let cases = [
        (Limits { width: 33, ..fine }, "refused 1"),
        (Limits { nodes: 65_537, ..fine }, "refused 2"),
        (Limits { nodes: usize::MAX, ..fine }, "refused 2"),
        (Limits { values: usize::MAX, ..fine }, "refused 2"),
        (Limits { values: 0, ..fine }, "refused 2"),
        (Limits { nodes: 0, ..fine }, "refused 14 steps 0"),
        (Limits { nodes: 65_536, values: 65_536, ..fine }, "equal factor 0 0 0 1 exponent 0 steps 0 nodes 3 values 2"),
    ];
    for (limits, line) in cases {
        tally.case(&format!("judge, {limits:?}"), || {
            let judged = judge(&[1, 0], &[1, 0], Schedule::Proportional, limits);
            alike("report", judged.report().to_string(), line.to_string())
        });
    }
}

/// Where no schedule can be made, or none is looked at, the list is refused.
fn unreadable_lists(tally: &mut Tally) {
    let cases: [(&[u8], &[u8], &str); 7] = [
        (&[], &[1, 0], "refused 3 list 1 byte 0"),
        (&[1], &[1, 0], "refused 3 list 1 byte 1"),
        (&[1, 0], &[1, 0x80], "refused 3 list 2 byte 1"),
        (&[1, 0x81, 0x80, 0], &[1, 0], "refused 4 list 1 byte 1"),
        (&[1, 0x81, 0x20], &[1, 0], "refused 6 list 1 byte 1"),
        (&[3, 0], &[3, 1, 10, 0b001, 2], "refused 17 list 2 byte 3"),
        (&[1, 0], &[2, 0], "refused 11"),
    ];
    for (list1, list2, line) in cases {
        tally.case(&format!("judge, {line}"), || {
            let judged = judge(list1, list2, Schedule::Proportional, Limits::default());
            alike("report", judged.report().to_string(), line.to_string())
        });
    }
}

/// The caller's stack does not matter, even with the largest stores.
fn on_a_short_stack() -> Checked {
    let limits = Limits { nodes: 65_536, values: 65_536, ..Limits::default() };
    let judged = thread::Builder::new()
        .stack_size(64 << 10)
        .spawn(move || judge(&[1, 1, 0, 0], &[1, 1, 0, 0], Schedule::Proportional, limits).report().verdict)
        .map_err(|error| error.to_string())?
        .join()
        .map_err(|_| "it panicked".to_string())?;
    match judged {
        Verdict::Equal { .. } => Ok(()),
        other => Err(format!("found {other}")),
    }
}

/// The schedule maker against the definition, and its two refusals.
fn schedules(tally: &mut Tally) {
    let few = (0..=FEW_GATES).flat_map(|m| (0..=FEW_GATES).map(move |p| (m, p)));
    for (m, p) in few.chain([(100, 1), (1, 100), (4096, 4096), (4096, 1), (1, 4096)]) {
        tally.case(&format!("schedule of {m} and {p}"), || check_schedule(m, p));
    }
    let refusals =
        [(4097, 0, 10_000, 6), (0, 4097, 10_000, 6), (u32::MAX, 1, 0, 6), (2, 4, 5, 15), (4096, 4096, 8191, 15)];
    for (m, p, length, number) in refusals {
        tally.case(&format!("schedule of {m} and {p} in {length} bytes"), || {
            let mut buffer = vec![7; length];
            let found = fill_proportional(m, p, &mut buffer);
            alike("returned", format!("{found:?}"), format!("{:?}", Err::<usize, _>(Refusal::Call { number })))?;
            alike("bytes left alone", buffer.iter().filter(|&&byte| byte == 7).count(), length)
        });
    }
}

fn check_schedule(m: usize, p: usize) -> Checked {
    let mut expected = dense::proportional(m, p);
    let made = proportional(m as u32, p as u32);
    alike("made", format!("{made:?}"), format!("{:?}", Ok::<_, Refusal>(&expected)))?;
    expected.extend([9, 9, 9]);
    let mut buffer = vec![9; m + p + 3];
    let filled = fill_proportional(m as u32, p as u32, &mut buffer);
    alike("returned", format!("{filled:?}"), format!("{:?}", Ok::<_, Refusal>(m + p)))?;
    alike("buffer", format!("{buffer:?}"), format!("{expected:?}"))
}
