//! Random pairs of lists at random and at tight limits, against the dense program.

use crate::call;
use crate::circuits::{list, random_circuit, rewritten, spoiled};
use crate::dense::miter::{MOST_QUBITS, Needs, Run};
use crate::dense::reader::Circuit;
use crate::dense::{Call, lengths, outcome, proportional};
use crate::random::Random;
use crate::tally::{Checked, Tally};

/// How many pairs of each number of qubits, and how many gates a list of them has at most.
const PAIRS: [(usize, usize); MOST_QUBITS as usize] = [(240, 40), (240, 40), (200, 40), (140, 40), (80, 40), (50, 40)];

pub fn run(tally: &mut Tally, seed: u64) {
    for (qubits, (pairs, most_gates)) in (1..).zip(PAIRS) {
        for pair in 0..pairs {
            let pair_seed = seed + 1000 * u64::from(qubits) + pair as u64;
            let name = format!("random pair, {qubits} qubits, seed {pair_seed}");
            tally.case(&name, || {
                let random = &mut Random::new(pair_seed);
                let (u, v) = random_pair(random, qubits, most_gates);
                check_pair(random, &u, &v)
            });
        }
    }
}

/// A pair by a random schedule, at all kinds of limits: the report and every slot of both stores.
pub fn check_pair(random: &mut Random, u: &Circuit, v: &Circuit) -> Checked {
    let schedule = random_schedule(random, u.gates.len(), v.gates.len());
    let run = Run::of(u, v, &schedule);
    let call = Call {
        list1: list(u),
        list2: list(v),
        schedule,
        w: 32,
        first: lengths(4096, 1024),
        second: lengths(4096, 1024),
    };
    for limits in interesting_limits(random, run.peak()).into_iter().chain(both_break(&run)) {
        let store = lengths(limits.nodes, limits.values);
        let call = Call { w: limits.width, first: store, second: store, ..call.clone() };
        let expected = outcome(&run, limits.width, limits.nodes, limits.values);
        call::check(&call, random.next() as u32, &expected)?;
    }
    Ok(())
}

/// Two random lists that have nothing to do with each other, or much.
pub fn random_pair(random: &mut Random, qubits: u32, most_gates: usize) -> (Circuit, Circuit) {
    pair_of(random, |random| {
        let gates = random.below(most_gates + 1);
        random_circuit(random, qubits, gates)
    })
}

/// Two lists that are made in one way, or one and what is made of it.
pub fn pair_of(random: &mut Random, make: impl Fn(&mut Random) -> Circuit) -> (Circuit, Circuit) {
    let u = make(random);
    let rewritings = random.below(8);
    let v = match random.below(4) {
        0 => make(random),
        1 => {
            let spoiled = spoiled(random, &u);
            rewritten(random, &spoiled, rewritings)
        }
        _ => rewritten(random, &u, rewritings),
    };
    (u, v)
}

/// A schedule that fits.
pub fn random_schedule(random: &mut Random, m: usize, p: usize) -> Vec<u8> {
    let mut schedule = proportional(m, p);
    match random.below(5) {
        0 => schedule.sort(),
        1 => schedule.sort_by(|one, other| other.cmp(one)),
        2 => random.shuffle(&mut schedule),
        _ => {}
    }
    schedule
}

/// Limits that are ample, just enough, one short in each, and random ones.
fn interesting_limits(random: &mut Random, peak: Needs) -> Vec<Needs> {
    let enough = Needs { width: peak.width.clamp(2, 32), ..peak };
    let mut limits = vec![
        Needs { width: 32, nodes: peak.nodes + random.below(200), values: peak.values + random.below(50) },
        enough,
        Needs { nodes: enough.nodes - 1, ..enough },
        Needs { values: enough.values - 1, ..enough },
        Needs { width: random.between(2, 32) as u32, ..enough },
        Needs {
            width: random.between(2, 32) as u32,
            nodes: random.below(peak.nodes + 2),
            values: random.between(1, peak.values + 1),
        },
    ];
    if enough.width > 2 {
        limits.push(Needs { width: enough.width - 1, ..enough });
    }
    limits
}

/// Limits that the steps before some step keep, and that it breaks in width and in size at once.
fn both_break(run: &Run) -> Option<Needs> {
    let mut before = run.needs[0];
    for &needs in &run.needs[1..] {
        let breaks = needs.width > before.width.max(2) && (needs.nodes > before.nodes || needs.values > before.values);
        if breaks {
            return Some(Needs { width: before.width.max(2), ..before });
        }
        before = before.most(needs);
    }
    None
}
