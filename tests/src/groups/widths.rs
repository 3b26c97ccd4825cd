//! Every width at its edges: numbers that just fit and that just do not, of both signs, in each place of an entry; most
//! of them in products that are divided afterwards, so that only the test before the dividing sees them.

use crate::call;
use crate::circuits::{S, S_INVERSE, T, T_INVERSE, X, Z, list};
use crate::dense::matrix::{CNOT, Gate, H};
use crate::dense::miter::{Miter, Run};
use crate::dense::reader::Circuit;
use crate::dense::{Call, lengths, outcome};
use crate::tally::{Checked, Tally, alike};

const NARROWEST: u32 = 2;
const WIDEST: u32 = 32;

/// The eighth roots of unity; from the half on they negate.
const ROOTS: usize = 8;
const HALF: usize = ROOTS / 2;

/// The gates that make T to a power.
const POWERS: [&[u32]; ROOTS] = [&[], &[T], &[S], &[S, T], &[Z], &[Z, T], &[S_INVERSE], &[T_INVERSE]];

/// Room for every diagram of two qubits.
const NODES: usize = 15;
const VALUES: usize = 16;

const DIRT: u32 = 13;

/// The qubit that the words act on, and the one that controls them.
const TARGET: u32 = 1;
const CONTROL: u32 = 0;

/// Where the control is 0 these gates undo each other, and where it is 1 they turn by an angle of which no multiple is
/// a whole turn. So they make an exponent of 2, and 1 more each time that they are done again, with a power of √2 on the
/// diagonal.
const GROWING: [u32; 12] = [T_INVERSE, CNOT, T, H, T_INVERSE, H, T_INVERSE, CNOT, T, H, T, H];

/// A word of H, each after a power of T, whose last product has a largest number within 1 of 2^(w−1) or −2^(w−1).
struct Word {
    powers: &'static str,
    width: u32,
    number: i128,
}

const fn word(width: u32, number: i128, powers: &'static str) -> Word {
    Word { powers, width, number }
}

/// Of some widths a word that fits and one that does not.
const WORDS: [Word; 16] = [
    word(3, 3, "15355"),
    word(3, 5, "3335551"),
    word(4, -7, "355331551"),
    word(4, 9, "31751357373"),
    word(5, -15, "3575173173533"),
    word(5, 17, "517555511155111"),
    word(6, 31, "77777535111753573"),
    word(6, 33, "7573373531757557373"),
    word(8, 127, "715513715373371331313313115"),
    word(8, -129, "373575731535155311515571117"),
    word(10, 511, "35751517157535331555177531331175533"),
    word(10, -513, "31371313177555773517777357555717351"),
    word(12, 2047, "11537127333775757737775577311771133351351171"),
    word(12, 2049, "71351751713731173117513715533363577555155171"),
    word(14, -8191, "57351555733753152551111171575335511537755111735531237"),
    word(14, -8193, "3777111710535155533317335143777711353151377711135171533753"),
];

/// A list whose last step brings the product's largest number to an edge of a width.
struct Edge {
    gates: Vec<u32>,
    width: u32,
    number: i128,
}

pub fn run(tally: &mut Tally) {
    let edges = (NARROWEST..=WIDEST).map(power_of_two).chain(WORDS.iter().map(Edge::of_word));
    for edge in edges {
        let name = format!("width {}, number {}", edge.width, edge.number);
        tally.case(&name, || (0..ROOTS).try_for_each(|root| check(&edge, root)));
    }
}

/// The gates that bring exactly 2^(w−1), which is out, to the diagonal and nothing as large elsewhere. A root of unity
/// makes it −2^(w−1), which is not out.
fn power_of_two(width: u32) -> Edge {
    let gates = match width {
        NARROWEST => vec![H, H],
        _ => GROWING.repeat(2 * (width as usize - 2)),
    };
    Edge { gates, width, number: 1 << (width - 1) }
}

impl Edge {
    fn of_word(word: &Word) -> Edge {
        let powers = word.powers.bytes().map(|digit| usize::from(digit - b'0'));
        let gates = powers.flat_map(|power| [POWERS[power], &[H]].concat()).collect();
        Edge { gates, width: word.width, number: word.number }
    }

    /// The gates times a root of unity, which moves the numbers to other places.
    fn circuit(&self, root: usize) -> Circuit {
        let root = [&[X], POWERS[root], &[X], POWERS[root]].concat();
        let gate = |&code: &u32| match code {
            CNOT => Gate::new(code, &[CONTROL, TARGET]),
            _ => Gate::new(code, &[TARGET]),
        };
        Circuit { qubits: 2, gates: root.iter().chain(&self.gates).map(gate).collect() }
    }

    /// Whether the last product is within the width.
    fn fits(&self, root: usize) -> bool {
        let bound = 1 << (self.width - 1);
        self.number.abs() < bound || self.number == bound && root >= HALF
    }
}

/// The gates as list 1 and as list 2.
fn check(edge: &Edge, root: usize) -> Checked {
    let circuit = edge.circuit(root);
    let empty = Circuit { qubits: circuit.qubits, gates: Vec::new() };
    if root == 0 {
        check_numbers(edge, &run_of(&circuit, &empty))?;
    }
    check_pair(&circuit, &empty, edge.width, edge.fits(root))?;
    // list 2 is inverted, and the root with it
    check_pair(&empty, &circuit, edge.width, edge.fits((ROOTS - root) % ROOTS))
}

/// The dense program's last product reaches the number and none that is larger; what is left of a power of 2 when the
/// product is divided is within the width.
fn check_numbers(edge: &Edge, run: &Run) -> Checked {
    let numbers =
        |miter: &Miter| -> Vec<i128> { miter.matrix.entries().iter().flat_map(|one| one.numbers()).collect() };
    let (product, number) = (numbers(&run.product), edge.number);
    let largest = product.iter().map(|number| number.abs()).max();
    if !product.contains(&number) || largest != Some(number.abs()) {
        return Err(format!("the last product has no {number}, or a larger number: {product:?}"));
    }
    if number == 1 << (edge.width - 1) {
        alike("fits when divided", run.last.width() <= edge.width, true)?;
    }
    Ok(())
}

/// The run of two lists of which one is empty.
fn run_of(u: &Circuit, v: &Circuit) -> Run {
    Run::of(u, v, &schedule_of(u, v))
}

fn schedule_of(u: &Circuit, v: &Circuit) -> Vec<u8> {
    vec![u8::from(u.gates.is_empty()); u.gates.len() + v.gates.len()]
}

/// Answered, or refused with 13 at the last step.
fn check_pair(u: &Circuit, v: &Circuit, width: u32, fits: bool) -> Checked {
    let schedule = schedule_of(u, v);
    let store = lengths(NODES, VALUES);
    let expected = outcome(&run_of(u, v), width, NODES, VALUES);
    let line = expected.report.to_string();
    if fits {
        alike("dense program refuses", line.starts_with("refused"), false)?;
    } else {
        alike("dense program", line, format!("refused 13 steps {}", schedule.len() - 1))?;
    }
    let call = Call { list1: list(u), list2: list(v), schedule, w: width, first: store, second: store };
    call::check(&call, DIRT, &expected)
}
