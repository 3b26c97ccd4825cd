//! The dense program held to sentences of the paper that it is not written from.

use gannetrope::Verdict;

use crate::circuits::{random_circuit, rewritten, spoiled, with_many_h};
use crate::dense::entry::{Entry, ONE, ROOT_2, ZERO};
use crate::dense::matrix::{CNOT, CODES, CZ, Gate, Matrix, targets};
use crate::dense::miter::{Miter, Run};
use crate::dense::reader::{Circuit, read_list};
use crate::dense::{proportional, verdict_line};
use crate::groups::random_pairs::pair_of;
use crate::random::Random;
use crate::tally::{Checked, Tally, alike};

/// Lists of one gate with a mask on three qubits, and the row of the 1 in each column.
const WRITTEN_OUT: [(&[u8], [usize; 8]); 6] = [
    (&[3, 1, 10, 0b011, 2], [0, 1, 2, 3, 4, 5, 7, 6]),
    (&[3, 1, 10, 0b101, 1], [0, 1, 2, 3, 4, 7, 6, 5]),
    (&[3, 1, 10, 0b110, 0], [0, 1, 2, 7, 4, 5, 6, 3]),
    (&[3, 1, 11, 0b001, 1, 2], [0, 1, 2, 3, 4, 6, 5, 7]),
    (&[3, 1, 11, 0b010, 2, 0], [0, 1, 2, 6, 4, 5, 3, 7]),
    (&[3, 1, 11, 0b100, 0, 1], [0, 1, 2, 5, 4, 3, 6, 7]),
];

/// Entries a b c d, and what they are over √2: 2 is √2·√2, √2 is w − w³, and i − 1 is √2·w³.
const DIVIDED: [([i32; 4], Option<[i32; 4]>); 6] = [
    ([0, 0, 0, 2], Some([-1, 0, 1, 0])),
    ([-1, 0, 1, 0], Some([0, 0, 0, 1])),
    ([0, 1, 0, -1], Some([1, 0, 0, 0])),
    ([0, 0, 0, 0], Some([0, 0, 0, 0])),
    ([0, 0, 0, 1], None),
    ([1, 1, 1, 0], None),
];

/// The most gates of a list with many H; its numbers fit an i128 without any dividing.
const MANY_H: usize = 30;

/// How many random pairs a case has.
const PAIRS: usize = 10;

pub fn run(tally: &mut Tally, seed: u64) {
    for code in 0..CODES {
        tally.case(&format!("inverse of code {code}"), || inverse_undoes(code));
    }
    for (list, rows) in WRITTEN_OUT {
        tally.case(&format!("matrix of {list:?}"), || written_out(list, &rows));
    }
    for (numbers, over_root_2) in DIVIDED {
        tally.case(&format!("{numbers:?} over √2"), || divided(numbers, over_root_2));
    }
    tally.case("proportional schedule of 2 and 4", example_schedule);
    tally.case("the paper's input", example_input);
    let mut random = Random::new(seed);
    for qubits in 1..=4 {
        for flavour in ["random", "rewritten", "spoiled"] {
            let name = format!("equal by its meaning, {qubits} qubits, {flavour}, seed {seed}");
            tally.case(&name, || (0..PAIRS).try_for_each(|_| equal_by_meaning(&mut random, qubits, flavour)));
        }
        let name = format!("least exponent, {qubits} qubits, seed {seed}");
        tally.case(&name, || (0..PAIRS).try_for_each(|_| least_exponent(&mut random, qubits)));
    }
}

/// A gate and its inverse, in both orders, make 1, or 2 over √2 twice.
fn inverse_undoes(code: u32) -> Checked {
    let named = match code {
        0..CNOT => 1,
        CNOT | CZ => 2,
        _ => 3,
    };
    for qubits in [[0, 1, 2], [1, 0, 2], [2, 0, 1], [2, 1, 0]] {
        let (controls, targets) = qubits[..named].split_at(named - targets(code));
        let gate = Gate::controlled(code, controls, targets);
        let (full, undone) = (gate.full(3), gate.inverse().full(3));
        let scale = Entry::whole(1 << gate.exponent());
        let identity = Matrix::identity(8);
        let scaled = Matrix::from_fn(8, |row, column| scale * identity.at(row, column));
        if full.times(&undone) != scaled || undone.times(&full) != scaled {
            return Err(format!("{gate:?} is not undone"));
        }
    }
    Ok(())
}

fn written_out(list: &[u8], rows: &[usize; 8]) -> Checked {
    let circuit = read_list(list).map_err(|fault| format!("{fault:?}"))?;
    let expected = Matrix::from_fn(8, |row, column| if row == rows[column] { ONE } else { ZERO });
    if Miter::of_circuit(&circuit).matrix == expected { Ok(()) } else { Err(format!("another matrix of {circuit:?}")) }
}

fn divided([a, b, c, d]: [i32; 4], over_root_2: Option<[i32; 4]>) -> Checked {
    let found = Entry::from(gannetrope::Entry { a, b, c, d }).over_root_2();
    let expected = over_root_2.map(|[a, b, c, d]| Entry::from(gannetrope::Entry { a, b, c, d }));
    if found == expected { Ok(()) } else { Err(format!("found {found:?}, expected {expected:?}")) }
}

fn example_schedule() -> Checked {
    alike("schedule", format!("{:?}", proportional(2, 4)), "[0, 1, 1, 0, 1, 1]".to_string())
}

fn example_input() -> Checked {
    let line = "different row 0 column 1 entry 0 0 0 1 corner 0 0 0 0 exponent 0 steps 1 nodes 3 values 2\n";
    alike("line", verdict_line(&[4, 1, 1, 0, 0, 1, 0]), line.to_string())
}

/// Equal means: some number times every entry of V's matrix gives U's.
fn equal_by_meaning(random: &mut Random, qubits: u32, flavour: &str) -> Checked {
    let gates = random.below(9);
    let u = random_circuit(random, qubits, gates);
    let v = match flavour {
        "random" => random_circuit(random, qubits, gates),
        "rewritten" => rewritten(random, &u, 5),
        _ => spoiled(random, &u),
    };
    let verdict = Run::of(&u, &v, &proportional(u.gates.len(), v.gates.len())).last.verdict();
    let multiple = is_multiple(&u, &v);
    match (verdict, multiple) {
        (Verdict::Equal { .. }, true) | (Verdict::Different { .. }, false) => Ok(()),
        _ => Err(format!("{verdict} of {u:?} and {v:?}")),
    }
}

/// What a run comes to is the undivided product over a smaller exponent, which is 0, or not "every entry has both a + c
/// and b + d even".
fn least_exponent(random: &mut Random, qubits: u32) -> Checked {
    let (u, v) = pair_of(random, |random| with_many_h(random, qubits, MANY_H));
    let run = Run::of(&u, &v, &proportional(u.gates.len(), v.gates.len()));
    let whole = Miter::of_pair(&u, &v);
    let (most, least) = (whole.exponent, run.last.exponent);
    let divisions =
        most.checked_sub(least).ok_or_else(|| format!("exponent {least} is over {most}, of {u:?} and {v:?}"))?;
    let raise = |&entry: &Entry| (0..divisions).fold(entry, |product, _| product * ROOT_2);
    let raised: Vec<Entry> = run.last.matrix.entries().iter().map(raise).collect();
    if raised != whole.matrix.entries() {
        return Err(format!("another matrix of {u:?} and {v:?}"));
    }
    let is_even = |entry: &Entry| {
        let [d, c, b, a] = entry.numbers();
        (a + c) % 2 == 0 && (b + d) % 2 == 0
    };
    let is_least = least == 0 || !run.last.matrix.entries().iter().all(is_even);
    alike("least exponent", is_least, true)
}

/// Whether U's matrix is a multiple of V's: every two places have the same ratio in both.
fn is_multiple(u: &Circuit, v: &Circuit) -> bool {
    let (u, v) = (Miter::of_circuit(u).matrix, Miter::of_circuit(v).matrix);
    let fixed = v.entries().iter().position(|entry| !entry.is_zero()).expect("V's matrix is not zero");
    let (fixed_u, fixed_v) = (u.entries()[fixed], v.entries()[fixed]);
    u.entries().iter().zip(v.entries()).all(|(&of_u, &of_v)| of_u * fixed_v == of_v * fixed_u)
}
