//! Toffoli and Fredkin gates against circuits that are the same operator and against others, on up to sixteen qubits.

use std::ops::RangeInclusive;

use gannetrope::Verdict;

use crate::call::{self, Lent};
use crate::circuits::{T, T_INVERSE, X, list, random_gate_of, toffoli_network};
use crate::dense::matrix::{CNOT, CZ, FREDKIN, Gate, H, TOFFOLI};
use crate::dense::miter::MOST_QUBITS;
use crate::dense::reader::Circuit;
use crate::dense::{self, Call, lengths, proportional};
use crate::groups::many_qubits::same_operator;
use crate::permutations;
use crate::random::Random;
use crate::tally::{Checked, Tally, alike};

/// What any gate of many controls names.
const LEAST: u32 = 3;

/// The numbers of qubits on which every choice of controls and targets is tried.
const FEW: RangeInclusive<u32> = LEAST..=5;

/// The most qubits that there are.
const ALL: u32 = 16;

/// The qubits of a choice besides its controls, and how far apart they are among all.
const TARGETS: u32 = 2;
const APART: u32 = 7;

/// Three qubits: in a row, apart, and at the ends.
const PLACES: [(u32, [u32; 3]); 5] =
    [(3, [0, 1, 2]), (5, [0, 2, 4]), (16, [0, 7, 15]), (16, [3, 4, 12]), (16, [13, 14, 15])];

/// Orders of three qubits: each as the target, the others in both orders.
const ORDERS: [[usize; 3]; 6] = [[0, 1, 2], [1, 0, 2], [0, 2, 1], [2, 0, 1], [1, 2, 0], [2, 1, 0]];

/// Room for every product of the pairs here.
const NODES: usize = 2048;
const VALUES: usize = 16;

const DIRT: u32 = 10;

/// Random pairs of each number of qubits, and the gates of each of their lists.
const PAIRS: u64 = 20;
const GATES: usize = 3;

pub fn run(tally: &mut Tally, seed: u64) {
    networks(tally);
    few_qubits(tally);
    all_qubits(tally);
    random_pairs(tally, seed);
}

fn toffoli(controls: &[u32], target: u32) -> Gate {
    Gate::controlled(TOFFOLI, controls, &[target])
}

/// A Toffoli gate, or with one control a CNOT.
fn flip(controls: &[u32], target: u32) -> Gate {
    match *controls {
        [control] => Gate::new(CNOT, &[control, target]),
        _ => toffoli(controls, target),
    }
}

/// A Fredkin gate, or with no control a swap.
fn swap(controls: &[u32], one: u32, other: u32) -> Vec<Gate> {
    let cnot = |control, target| Gate::new(CNOT, &[control, target]);
    match controls {
        [] => vec![cnot(one, other), cnot(other, one), cnot(one, other)],
        _ => vec![fredkin(controls, one, other)],
    }
}

fn fredkin(controls: &[u32], one: u32, other: u32) -> Gate {
    Gate::controlled(FREDKIN, controls, &[one, other])
}

fn on(code: u32, qubit: u32) -> Gate {
    Gate::new(code, &[qubit])
}

/// The controls and one qubit more.
fn with(controls: &[u32], more: u32) -> Vec<u32> {
    [controls, &[more]].concat()
}

/// All qubits but these.
fn without(qubits: u32, these: &[u32]) -> Vec<u32> {
    (0..qubits).filter(|qubit| !these.contains(qubit)).collect()
}

// ---- the same operator, or not

fn circuits(qubits: u32, u: &[Gate], v: &[Gate]) -> (Circuit, Circuit) {
    (Circuit { qubits, gates: u.to_vec() }, Circuit { qubits, gates: v.to_vec() })
}

fn call(u: &Circuit, v: &Circuit, schedule: Vec<u8>) -> Call {
    let store = lengths(NODES, VALUES);
    Call { list1: list(u), list2: list(v), schedule, w: 32, first: store, second: store }
}

/// Two words of gates whose matrices are alike: the report and every slot, along two schedules.
fn check_same(qubits: u32, u: &[Gate], v: &[Gate]) -> Checked {
    let (u, v) = circuits(qubits, u, v);
    let expected = same_operator(&u, &v);
    let in_turns = proportional(u.gates.len(), v.gates.len());
    let mut in_order = in_turns.clone();
    in_order.sort();
    for schedule in [in_turns, in_order] {
        let call = call(&u, &v, schedule);
        if qubits <= MOST_QUBITS && dense::judge(&call) != expected {
            return Err(format!("dense program: found {}\n  {}", dense::judge(&call).report, call::describe(&call)));
        }
        call::check(&call, DIRT, &expected)?;
    }
    Ok(())
}

/// Two words of X, CNOT, Toffoli and Fredkin gates that are not alike.
fn check_different(qubits: u32, u: &[Gate], v: &[Gate]) -> Checked {
    let (u, v) = circuits(qubits, u, v);
    let verdict = permutations::verdict(&u, &v).to_string();
    alike("different by the permutations", verdict.starts_with("different"), true)?;
    permutations::check(&u, &v)
}

// ---- two controls

/// Against the Clifford+T network, and against one in which a T† is a T.
fn networks(tally: &mut Tally) {
    for (qubits, places) in PLACES {
        for order in ORDERS {
            let [one, other, target] = order.map(|index| places[index]);
            let gate = [toffoli(&[one, other], target)];
            let network = toffoli_network(one, other, target);
            let name = format!("network of a Toffoli gate on {one}, {other}, {target} of {qubits}");
            tally.case(&name, || check_same(qubits, &gate, &network));
            tally.case(&format!("{name}, wrong"), || check_wrong(qubits, &gate, &network));
        }
    }
}

fn check_wrong(qubits: u32, gate: &[Gate], network: &[Gate]) -> Checked {
    let mut wrong = network.to_vec();
    let place = network.iter().position(|gate| gate.code == T_INVERSE).expect("a T†");
    wrong[place].code = T;
    let (u, v) = circuits(qubits, gate, &wrong);
    let call = call(&u, &v, proportional(u.gates.len(), v.gates.len()));
    let found = call::perform(&call, &mut Lent::for_call(&call, DIRT)).verdict;
    let Verdict::Different { .. } = found else { return Err(format!("found {found}")) };
    if qubits <= MOST_QUBITS { call::check(&call, DIRT, &dense::judge(&call)) } else { Ok(()) }
}

// ---- every choice of controls and targets

/// Controls, and two qubits besides.
struct Choice {
    controls: Vec<u32>,
    one: u32,
    other: u32,
}

/// What must hold for a choice among so many qubits.
const IDENTITIES: [(&str, fn(u32, &Choice) -> Checked); 7] = [
    ("Fredkin by Toffoli gates", by_toffolis),
    ("Fredkin by CNOT and Toffoli", by_cnots),
    ("Fredkin of its targets in both orders", by_turning),
    ("Toffoli carried through Fredkin", carried),
    ("Toffoli as a phase", as_phase),
    ("Toffoli on a parity", on_parity),
    ("controls that matter", controls_matter),
];

fn few_qubits(tally: &mut Tally) {
    for qubits in FEW {
        for controls in 1..=qubits - TARGETS {
            identities(tally, qubits, &choices(qubits, controls));
        }
    }
}

/// An identity for all choices with one number of controls is one case.
fn identities(tally: &mut Tally, qubits: u32, choices: &[Choice]) {
    let controls = choices[0].controls.len();
    for (name, check) in IDENTITIES {
        let name = format!("{name}, {controls} controls, {qubits} qubits");
        tally.case(&name, || choices.iter().try_for_each(|choice| check(qubits, choice)));
    }
}

fn choices(qubits: u32, controls: u32) -> Vec<Choice> {
    let pairs = (0..qubits).flat_map(|one| (0..qubits).map(move |other| (one, other)));
    let masks = || (0..1u32 << qubits).filter(|mask| mask.count_ones() == controls);
    let all = pairs.flat_map(|(one, other)| masks().map(move |mask| (mask, one, other)));
    let apart = all.filter(|(mask, one, other)| one != other && mask & (1 << one | 1 << other) == 0);
    let named = |mask: u32| (0..qubits).filter(|qubit| mask >> qubit & 1 == 1).collect();
    apart.map(|(mask, one, other)| Choice { controls: named(mask), one, other }).collect()
}

/// A swap is three flips, each of which only the controls allow.
fn by_toffolis(qubits: u32, Choice { controls, one, other }: &Choice) -> Checked {
    let flip = toffoli(&with(controls, *one), *other);
    let back = toffoli(&with(controls, *other), *one);
    check_same(qubits, &[fredkin(controls, *one, *other)], &[flip.clone(), back, flip])
}

/// Of the three flips only the middle one needs the controls.
fn by_cnots(qubits: u32, Choice { controls, one, other }: &Choice) -> Checked {
    let cnot = Gate::new(CNOT, &[*other, *one]);
    let flip = toffoli(&with(controls, *one), *other);
    check_same(qubits, &[cnot.clone(), flip, cnot], &[fredkin(controls, *one, *other)])
}

fn by_turning(qubits: u32, Choice { controls, one, other }: &Choice) -> Checked {
    check_same(qubits, &[fredkin(controls, *one, *other)], &[fredkin(controls, *other, *one)])
}

/// A flip of one target before the swap is a flip of the other after it, and not of the one.
fn carried(qubits: u32, Choice { controls, one, other }: &Choice) -> Checked {
    let swap = fredkin(controls, *one, *other);
    let (before, after) = (flip(controls, *one), flip(controls, *other));
    check_same(qubits, &[before.clone(), swap.clone()], &[swap.clone(), after])?;
    check_different(qubits, &[before.clone(), swap.clone()], &[swap, before])
}

/// Between H on its target a Toffoli gate negates where all its qubits are 1: any of them may be the target, and CZ and
/// T may stand before or after it.
fn as_phase(qubits: u32, Choice { controls, one, other }: &Choice) -> Checked {
    let negate = |controls: &[u32], target| [on(H, target), toffoli(controls, target), on(H, target)];
    let first = negate(&with(controls, *one), *other);
    let turned = negate(&with(controls, *other), *one);
    let phases = [Gate::new(CZ, &[*one, *other]), on(T, *one), on(T, controls[0])];
    check_same(qubits, &first, &turned)?;
    check_same(qubits, &[&first[..], &phases].concat(), &[&phases[..], &first].concat())
}

/// Two flips by different controls, besides those they share, are one flip by the parity of the two.
fn on_parity(qubits: u32, Choice { controls, one, other }: &Choice) -> Checked {
    let (target, shared) = (controls[0], &controls[1..]);
    let by = |control| flip(&with(shared, control), target);
    let parity = Gate::new(CNOT, &[*one, *other]);
    check_same(qubits, &[by(*one), by(*other)], &[parity.clone(), by(*other), parity])
}

/// A control less, or one that must be 0, makes another operator.
fn controls_matter(qubits: u32, Choice { controls, one, other }: &Choice) -> Checked {
    let flips = |controls: &[u32]| vec![flip(&with(controls, *one), *other)];
    let swaps = |controls: &[u32]| swap(controls, *one, *other);
    let negated = |word: Vec<Gate>| [vec![on(X, controls[0])], word, vec![on(X, controls[0])]].concat();
    check_different(qubits, &flips(controls), &flips(&controls[1..]))?;
    check_different(qubits, &swaps(controls), &swaps(&controls[1..]))?;
    check_different(qubits, &flips(controls), &negated(flips(controls)))?;
    check_different(qubits, &swaps(controls), &negated(swaps(controls)))?;
    check_different(qubits, &flips(controls), &swaps(controls))
}

// ---- sixteen qubits

/// Gates that name every qubit, against themselves, none, and one that differs in a target.
fn all_qubits(tally: &mut Tally) {
    for target in 0..ALL {
        let next = (target + 1) % ALL;
        let flip = |target| [toffoli(&without(ALL, &[target]), target)];
        let swap = |one, other| [fredkin(&without(ALL, &[one, other]), one, other)];
        let apart = (target + APART) % ALL;
        tally.case(&format!("15 controls, target {target}"), || check_all(flip(target), flip(next)));
        tally.case(&format!("14 controls, targets {target} and {apart}"), || {
            check_all(swap(target, apart), swap(target, next))
        });
    }
    for controls in 1..=ALL - TARGETS {
        // targets on both sides of controls, and in both orders
        let (one, other) = (controls, (controls + APART) % ALL);
        let others = without(ALL, &[one, other]);
        identities(tally, ALL, &[Choice { controls: others[..controls as usize].to_vec(), one, other }]);
    }
}

fn check_all(gate: [Gate; 1], other: [Gate; 1]) -> Checked {
    check_same(ALL, &gate, &gate)?;
    check_same(ALL, &[&gate[..], &gate].concat(), &[])?;
    check_different(ALL, &gate, &[])?;
    check_different(ALL, &[], &gate)?;
    check_different(ALL, &gate, &other)
}

// ---- random circuits of permutations

fn random_pairs(tally: &mut Tally, seed: u64) {
    for qubits in LEAST..=ALL {
        for pair in 0..PAIRS {
            let pair_seed = seed + 1_300_000 + 1000 * u64::from(qubits) + pair;
            let name = format!("random permutations, {qubits} qubits, seed {pair_seed}");
            tally.case(&name, || check_pair(&mut Random::new(pair_seed), qubits));
        }
    }
}

/// Two lists of their own, or one and itself with a gate and its undoing put in.
fn check_pair(random: &mut Random, qubits: u32) -> Checked {
    let u = random_permutation(random, qubits);
    let mut v = random_permutation(random, qubits);
    if random.below(2) == 0 {
        let gate = v.gates.swap_remove(0);
        v.gates = u.gates.clone();
        v.gates.splice(1..1, [gate.clone(), gate]);
    }
    permutations::check(&u, &v)
}

fn random_permutation(random: &mut Random, qubits: u32) -> Circuit {
    let gate = |random: &mut Random| {
        let code = *random.pick(&[X, CNOT, TOFFOLI, FREDKIN]);
        random_gate_of(random, code, qubits)
    };
    Circuit { qubits, gates: (0..GATES).map(|_| gate(random)).collect() }
}
