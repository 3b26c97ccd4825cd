//! Late refusals by 14: a step whose product has no room takes milliseconds if each of its states is walked once, and
//! else, over a full matrix of many qubits, seconds to hours.

use std::cell::Cell;
use std::ops::RangeInclusive;
use std::path::Path;
use std::time::Duration;

use gannetrope::{MOST_SLOTS, Refusal, Report, Verdict};

use crate::call::{self, Lent};
use crate::circuits::{S, S_INVERSE, T, T_INVERSE, list, random_gate_of};
use crate::dense::matrix::{CNOT, FREDKIN, Gate, H, TOFFOLI};
use crate::dense::miter::{Needs, Run};
use crate::dense::reader::{Circuit, read_list};
use crate::dense::{Call, Outcome, Stores, lengths, outcome, proportional, split};
use crate::limited;
use crate::on_thread::{Answer, OnThread};
use crate::program::Program;
use crate::random::Random;
use crate::tally::{Checked, Tally, alike};

/// What the kept inputs may take: a hundredth of a second, and room for a slow machine.
const QUICK: Duration = Duration::from_millis(100);

const WIDTH: u32 = 32;

/// The qubits of runs that the dense program checks, and of those that are held to their own shorter runs.
const FEW_QUBITS: RangeInclusive<u32> = 4..=6;
const MANY_QUBITS: RangeInclusive<u32> = 10..=16;

/// More values than any product of such a run has.
const AMPLE_VALUES: usize = 1024;

/// The sizes that random ones lie between; the identity fits the least.
const NODES: RangeInclusive<usize> = 62..=4096;
const VALUES: RangeInclusive<usize> = 2..=10;

/// What a phase on a parity has at most: the target is one of the first qubits.
const TARGETS: usize = 3;
const CONTROLS: usize = 3;
const H_GATES: usize = 2;

/// How many runs of each number of qubits.
const RUNS: u64 = 8;

/// What the earlier contents of the stores are made from.
const DIRT: u32 = 14;

/// Calls in a process of their own, and the longest that one took.
struct Timed {
    on_thread: OnThread,
    longest: Cell<Duration>,
}

impl Timed {
    fn judge(&self, call: &Call) -> Result<Answer, String> {
        let answer = self.on_thread.judge(call)?;
        self.longest.set(self.longest.get().max(answer.time));
        Ok(answer)
    }

    fn is_refused(&self, call: &Call) -> Result<bool, String> {
        Ok(self.judge(call)?.line.starts_with("refused"))
    }

    /// Only a call that is answered in time is made here too, where every slot can be looked at.
    fn check(&self, call: &Call, expected: &Outcome) -> Checked {
        alike("line", self.judge(call)?.line, expected.report.to_string())?;
        call::check(call, DIRT, expected)
    }
}

pub fn run(tally: &mut Tally, home: &Path, library: &Path, vectors: &Path, program: &Program, seed: u64) {
    tally.case("slow refusal a", || check_program(&read(vectors, "slow-refusal-14-a.bin"), program));
    let timed = match OnThread::compile(home, library) {
        Ok(on_thread) => Timed { on_thread, longest: Cell::default() },
        Err(wrong) => return tally.case("calls on a thread", || Err(wrong)),
    };
    tally.case("slow refusal b", || check_call(&read(vectors, "slow-refusal-14-b.bin"), &timed));
    for (qubits, run) in FEW_QUBITS.chain(MANY_QUBITS).flat_map(|qubits| (0..RUNS).map(move |run| (qubits, run))) {
        let run_seed = seed + 1_100_000 + 1000 * u64::from(qubits) + run;
        let name = format!("late refusal, {qubits} qubits, seed {run_seed}");
        tally.case(&name, || check_late(&timed, qubits, &mut Random::new(run_seed)));
    }
    println!("  the longest call took {:.3} s of processor time", timed.longest.get().as_secs_f64());
}

// ---- kept inputs

fn read(vectors: &Path, name: &str) -> Vec<u8> {
    std::fs::read(vectors.join(name)).unwrap_or_else(|error| panic!("{name}: {error}"))
}

fn check_program(input: &[u8], program: &Program) -> Checked {
    let ended = limited::run::<&str>(program.path.as_os_str(), &[], input)?;
    alike("line", &ended.output[..], "refused 14 steps 95\n")?;
    quick("slow refusal a", ended.time)
}

/// Sixteen H, from the last qubit up, come to 62 nodes at the last, and T on qubit 0 after them to 120.
fn check_call(input: &[u8], timed: &Timed) -> Checked {
    let (list1, list2) = split(input).map_err(|number| format!("refused {number}"))?;
    let gates = |list| read_list(list).expect("a list").gates.len();
    let schedule = proportional(gates(list1), gates(list2));
    let call = |nodes| Call {
        list1: list1.to_vec(),
        list2: list2.to_vec(),
        schedule: schedule.clone(),
        w: WIDTH,
        first: lengths(nodes, AMPLE_VALUES),
        second: lengths(nodes, AMPLE_VALUES),
    };
    let answered = "different row 0 column 1 entry 0 0 0 1 corner 0 0 0 1 exponent 16 steps 17 nodes 120 values 4";
    alike("line at 120 nodes", &timed.judge(&call(120))?.line[..], answered)?;
    for (nodes, steps) in [(119, 16), (61, 15), (62, 16)] {
        timed.check(&call(nodes), &refused_for_room(steps))?;
    }
    quick("slow refusal b", timed.judge(&call(62))?.time)
}

fn quick(name: &str, time: Duration) -> Checked {
    println!("  {name} took {:.3} s of processor time", time.as_secs_f64());
    if time <= QUICK { Ok(()) } else { Err(format!("took {time:?} of processor time, expected at most {QUICK:?}")) }
}

fn refused_for_room(steps: usize) -> Outcome {
    let refusal = Refusal::Step { number: 14, steps: steps as u32 };
    Outcome { report: Report::refused(refusal), stores: Stores::Zero }
}

// ---- random runs

/// A run whose last step may need twice the room of all before it: each gate is of list 1 or 2, as the schedule says.
struct Late {
    qubits: u32,
    gates: Vec<Gate>,
    schedule: Vec<u8>,
}

impl Late {
    /// A full layer, then phases on parities, each on any side; half of them end with a gate of many controls.
    fn random(random: &mut Random, qubits: u32) -> Late {
        let mut late = Late { qubits, gates: Vec::new(), schedule: Vec::new() };
        late.extend(random.below(2) as u8, full_layer(qubits, || *random.pick(&[S, S_INVERSE])));
        for _ in 0..random.between(1, 3) {
            late.extend(random.below(2) as u8, phase_on_parity(random, qubits));
        }
        if let Some(code) = *random.pick(&[None, None, Some(TOFFOLI), Some(FREDKIN)]) {
            late.extend(random.below(2) as u8, vec![random_gate_of(random, code, qubits)]);
        }
        late
    }

    fn extend(&mut self, side: u8, gates: Vec<Gate>) {
        self.gates.extend(gates);
        self.schedule.resize(self.gates.len(), side);
    }

    fn circuit(&self, side: u8, steps: usize) -> Circuit {
        let of_side = self.gates.iter().zip(&self.schedule).take(steps).filter(|(_, of)| **of == side);
        Circuit { qubits: self.qubits, gates: of_side.map(|(gate, _)| gate.clone()).collect() }
    }

    /// The call that makes the first steps.
    fn call(&self, steps: usize, nodes: usize, values: usize) -> Call {
        Call {
            list1: list(&self.circuit(0, steps)),
            list2: list(&self.circuit(1, steps)),
            schedule: self.schedule[..steps].to_vec(),
            w: WIDTH,
            first: lengths(nodes, values),
            second: lengths(nodes, values),
        }
    }

    /// The report of the first steps in the largest stores, where they are not refused.
    fn report(&self, steps: usize) -> Result<Report, String> {
        let call = self.call(steps, MOST_SLOTS, AMPLE_VALUES);
        let report = call::perform(&call, &mut Lent::for_call(&call, DIRT));
        match report.verdict {
            Verdict::Refused(refusal) => Err(format!("{refusal} in the largest stores\n  {}", call::describe(&call))),
            _ => Ok(report),
        }
    }
}

/// S or S† and H on every qubit, the last first: a matrix without a zero, of four values, with a small diagram.
pub fn full_layer(qubits: u32, mut phase: impl FnMut() -> u32) -> Vec<Gate> {
    (0..qubits).rev().flat_map(|qubit| [Gate::new(phase(), &[qubit]), Gate::new(H, &[qubit])]).collect()
}

/// CNOTs onto one of the first qubits, H on some, and T or T† on the first one, at which the whole diagram splits.
fn phase_on_parity(random: &mut Random, qubits: u32) -> Vec<Gate> {
    let target = random.below(TARGETS) as u32;
    let mut others: Vec<u32> = (0..qubits).filter(|&qubit| qubit != target).collect();
    random.shuffle(&mut others);
    let controls = others[..random.between(0, CONTROLS)].iter().map(|&control| Gate::new(CNOT, &[control, target]));
    let mut gates: Vec<Gate> = controls.collect();
    random.shuffle(&mut others);
    gates.extend(others[..random.between(0, H_GATES)].iter().map(|&qubit| Gate::new(H, &[qubit])));
    gates.push(Gate::new(*random.pick(&[T, T_INVERSE]), &[target]));
    gates
}

fn check_late(timed: &Timed, qubits: u32, random: &mut Random) -> Checked {
    let late = Late::random(random, qubits);
    if FEW_QUBITS.contains(&qubits) {
        check_by_matrices(timed, &late)
    } else {
        check_by_shorter_runs(timed, &late, random)
    }
}

/// Every step that needs more room than those before it, refused for just that.
fn check_by_matrices(timed: &Timed, late: &Late) -> Checked {
    let all = late.gates.len();
    let run = Run::of(&late.circuit(0, all), &late.circuit(1, all), &late.schedule);
    let mut before = run.needs[0];
    for &needs in &run.needs[1..] {
        if needs.nodes > before.nodes {
            check_limits(timed, late, &run, Needs { values: AMPLE_VALUES, ..before })?;
        }
        if needs.values > before.values {
            check_limits(timed, late, &run, Needs { nodes: run.peak().nodes, ..before })?;
        }
        before = before.most(needs);
    }
    check_limits(timed, late, &run, before)
}

fn check_limits(timed: &Timed, late: &Late, run: &Run, limits: Needs) -> Checked {
    let call = late.call(late.gates.len(), limits.nodes, limits.values);
    timed.check(&call, &outcome(run, WIDTH, limits.nodes, limits.values))
}

/// No matrix is at hand: the run in stores that the steps before the last just fit, in smaller ones, and in any.
fn check_by_shorter_runs(timed: &Timed, late: &Late, random: &mut Random) -> Checked {
    let (whole, before) = (late.report(late.gates.len())?, late.report(late.gates.len() - 1)?);
    let is_refused = |nodes, values| timed.is_refused(&late.call(late.gates.len() - 1, nodes, values));
    let nodes = least(before.nodes as usize, |nodes| is_refused(nodes, AMPLE_VALUES))?;
    let ample_nodes = nodes.max(whole.nodes as usize);
    let values = least(before.values as usize, |values| is_refused(ample_nodes, values))?;
    let sizes = [
        (nodes, AMPLE_VALUES),
        (ample_nodes, values),
        (nodes, values),
        (nodes - 1, AMPLE_VALUES),
        (ample_nodes, values - 1),
        (random_of(random, NODES), AMPLE_VALUES),
        (random_of(random, NODES), random_of(random, VALUES)),
    ];
    sizes.into_iter().try_for_each(|(nodes, values)| check_sizes(timed, late, nodes, values))
}

fn random_of(random: &mut Random, sizes: RangeInclusive<usize>) -> usize {
    random.between(*sizes.start(), *sizes.end())
}

/// The least size that is not refused, where no smaller one than the first will do.
fn least(first: usize, is_refused: impl Fn(usize) -> Result<bool, String>) -> Result<usize, String> {
    let (mut refused, mut enough) = (first - 1, first);
    while is_refused(enough)? {
        (refused, enough) = (enough, 2 * enough);
    }
    while refused + 1 < enough {
        let middle = (refused + enough) / 2;
        if is_refused(middle)? { refused = middle } else { enough = middle }
    }
    Ok(enough)
}

/// The run is refused at the first step whose product has no room; up to there it is answered as in the largest stores.
fn check_sizes(timed: &Timed, late: &Late, nodes: usize, values: usize) -> Checked {
    let has_room = |report: &Report| report.nodes as usize <= nodes && report.values as usize <= values;
    let all = late.gates.len();
    let line = timed.judge(&late.call(all, nodes, values))?.line;
    let finished = match line.strip_prefix("refused 14 steps ") {
        Some(steps) => steps.parse().map_err(|_| format!("found {line}"))?,
        None => all,
    };
    let report = late.report(finished)?;
    let cut = late.call(finished, nodes, values);
    alike("line of the steps finished", timed.judge(&cut)?.line, report.to_string())?;
    if !has_room(&report) || finished < all && has_room(&late.report(finished + 1)?) {
        return Err(format!("found {line}, expected it at another step\n  {}", call::describe(&cut)));
    }
    if finished == all {
        return Ok(());
    }
    timed.check(&late.call(finished + 1, nodes, values), &refused_for_room(finished))
}
