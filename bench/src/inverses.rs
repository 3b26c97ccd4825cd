//! Writing the inverse of a list, beside a plain writer that decodes the list and encodes its gates undone.

use crate::agreement::Agreement;
use crate::circuit::{Circuit, Code};
use crate::families::random_list;
use crate::random::Random;
use crate::rewrite::inverted;
use crate::timing::{fastest, in_turns, microseconds, ratio};
use gannetrope::fill_inverse;

const QUBITS: u8 = 16;

/// How many gates the lists have.
const SIZES: [usize; 5] = [16, 64, 256, 1024, 4096];

const SEED: u64 = 7;

/// A list of random gates, how many they are, and of how many codes.
pub struct Undoing {
    gates: usize,
    codes: usize,
    list: Vec<u8>,
}

/// Lists without masks of controls, and lists of all codes.
pub fn all() -> Vec<Undoing> {
    [Code::UNMASKED, &Code::ALL].into_iter().flat_map(of_codes).collect()
}

fn of_codes(codes: &[Code]) -> Vec<Undoing> {
    let random = &mut Random::new(SEED);
    let undoing = |gates| {
        let list = random_list(QUBITS, gates, codes, random).encode();
        Undoing { gates, codes: codes.len(), list }
    };
    SIZES.map(undoing).into()
}

impl Undoing {
    pub fn name(&self) -> String {
        format!("inverse of {} gates of {} codes", self.gates, self.codes)
    }

    /// Whether both writers give the same bytes.
    pub fn check(&self) -> Agreement {
        let mut buffer = vec![0; self.list.len()];
        let written = fill_inverse(&self.list, &mut buffer).map_err(|refusal| refusal.to_string())?;
        if buffer[..written] == self.plain() { Ok(()) } else { Err("the bytes differ".to_string()) }
    }

    fn plain(&self) -> Vec<u8> {
        let circuit = Circuit::decode(&self.list).expect("a list");
        Circuit { gates: inverted(&circuit.gates), ..circuit }.encode()
    }
}

pub fn heading() -> String {
    format!(
        "{:>5} {:>6} {:>6} {:>10} {:>8} {:>10} {:>6}",
        "codes", "gates", "bytes", "proved us", "ns/gate", "plain us", "ratio"
    )
}

/// Times the list and gives its line, or what differs.
pub fn measure(undoing: &Undoing) -> Result<String, String> {
    let mut buffer = vec![0; undoing.list.len()];
    let library = || fastest(|| fill_inverse(&undoing.list, &mut buffer));
    let (library, plain) = in_turns(library, || fastest(|| undoing.plain()));
    undoing.check().map_err(|wrong| format!("{}: {wrong}", undoing.name()))?;
    Ok(format!(
        "{:>5} {:>6} {:>6} {:>10.2} {:>8.2} {:>10.2} {:>6.3}",
        undoing.codes,
        undoing.gates,
        undoing.list.len(),
        microseconds(library),
        microseconds(library) * 1e3 / undoing.gates as f64,
        microseconds(plain),
        ratio(library, plain)
    ))
}
