//! The same pair under many schedules, widths, sizes and earlier contents gives one report and one store.

use crate::call::{self, Lent};
use crate::circuits::{list, with_many_h};
use crate::dense::miter::{Needs, Run};
use crate::dense::reader::Circuit;
use crate::dense::{Call, Outcome, lengths, outcome, proportional};
use crate::groups::random_pairs::{pair_of, random_pair, random_schedule};
use crate::hex;
use crate::random::Random;
use crate::tally::{Checked, Tally};

/// How many pairs of each number of qubits, and how many gates a list of them has at most.
const PAIRS: [u64; 5] = [12, 12, 12, 8, 4];
const MOST_GATES: usize = 18;

/// What keeps the seeds apart from those of other groups, and of each number of qubits.
const FIRST_SEED: u64 = 500_000;
const SEEDS: u64 = 1000;

/// How many schedules a pair is judged by, beside the proportional one.
const SCHEDULES: usize = 10;

pub fn run(tally: &mut Tally, seed: u64) {
    for (qubits, pairs) in (1..).zip(PAIRS) {
        for pair in 0..pairs {
            let pair_seed = seed + FIRST_SEED + SEEDS * u64::from(qubits) + pair;
            let name = format!("one answer, {qubits} qubits, seed {pair_seed}");
            tally.case(&name, || {
                let random = &mut Random::new(pair_seed);
                // every second pair has an exponent that is lowered at many steps
                let (u, v) = match pair % 2 {
                    0 => random_pair(random, qubits, MOST_GATES),
                    _ => pair_of(random, |random| with_many_h(random, qubits, MOST_GATES)),
                };
                check_pair(random, &u, &v)
            });
        }
    }
}

fn check_pair(random: &mut Random, u: &Circuit, v: &Circuit) -> Checked {
    let (m, p) = (u.gates.len(), v.gates.len());
    let mut schedules = vec![proportional(m, p)];
    schedules.extend((0..SCHEDULES).map(|_| random_schedule(random, m, p)));

    let ample = Needs { width: 32, nodes: 65_536, values: 65_536 };
    let first = Run::of(u, v, &schedules[0]);
    let answer = outcome(&first, ample.width, ample.nodes, ample.values);
    let mut lent = Lent::dirty(&lengths(0, 0), &lengths(0, 0), 0);
    for schedule in schedules {
        let run = Run::of(u, v, &schedule);
        if outcome(&run, ample.width, ample.nodes, ample.values) != answer {
            return Err(format!("the dense program has two answers, schedule {}", hex::encode(&schedule)));
        }
        let call =
            Call { list1: list(u), list2: list(v), schedule, w: 32, first: lengths(0, 1), second: lengths(0, 1) };
        check_limits(random, &call, run.peak(), &answer, &mut lent)?;
    }
    Ok(())
}

/// One schedule at limits from just enough to ample, on new stores and on what another run left.
fn check_limits(random: &mut Random, call: &Call, peak: Needs, answer: &Outcome, lent: &mut Lent) -> Checked {
    let enough = peak.width.max(2);
    for more in [0, 1, random.below(100), 4000] {
        let store = lengths(peak.nodes + more, peak.values + more);
        let w = random.between(enough as usize, 32) as u32;
        let call = Call { w, first: store, second: store, ..call.clone() };
        call::check(&call, random.next() as u32, answer)?;
        refill(lent, &call, random);
        call::check_in(&call, lent, answer)?;
    }
    Ok(())
}

/// Makes the stores as long as the call's, keeping what they hold, and spreads some of it.
fn refill(lent: &mut Lent, call: &Call, random: &mut Random) {
    let mut fresh = Lent::for_call(call, random.next() as u32);
    for (new, old) in [(&mut fresh.first, &lent.first), (&mut fresh.second, &lent.first)] {
        overwrite(&mut new.level, &old.level);
        overwrite(&mut new.low, &old.low);
        overwrite(&mut new.high, &old.high);
        overwrite(&mut new.a, &old.a);
        overwrite(&mut new.b, &old.b);
        overwrite(&mut new.c, &old.c);
        overwrite(&mut new.d, &old.d);
    }
    *lent = fresh;
}

fn overwrite<T: Copy>(new: &mut [T], old: &[T]) {
    let length = new.len().min(old.len());
    new[..length].copy_from_slice(&old[..length]);
}
