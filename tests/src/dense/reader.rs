//! A reader of gate lists, with the refusals 3 to 10 and 17.

use super::matrix::{CNOT, CODES, CZ, FREDKIN, Gate, TOFFOLI, targets};

/// A circuit: what a list's bytes say.
#[derive(Clone, Debug, PartialEq, Eq)]
pub struct Circuit {
    pub qubits: u32,
    pub gates: Vec<Gate>,
}

/// A number of the table of refusals, and an offset in the list.
#[derive(Clone, Copy, Debug, PartialEq, Eq)]
pub struct Fault {
    pub number: u32,
    pub offset: usize,
}

const MOST_QUBITS: u32 = 16;
const MOST_GATES: u32 = 4096;

/// How many controls a gate with a mask needs.
pub const LEAST_OF_TOFFOLI: usize = 2;
pub const LEAST_OF_FREDKIN: usize = 1;

/// Reads a whole list.
pub fn read_list(list: &[u8]) -> Result<Circuit, Fault> {
    let mut reader = Reader { list, next: 0 };
    let qubits = reader.number_that(5, |count| (1..=MOST_QUBITS).contains(&count))?;
    let count = reader.number_that(6, |count| count <= MOST_GATES)?;
    let gates = (0..count).map(|_| reader.gate(qubits)).collect::<Result<_, _>>()?;
    if reader.next < list.len() {
        return Err(Fault { number: 10, offset: reader.next });
    }
    Ok(Circuit { qubits, gates })
}

/// The number that the bytes begin with, and how many bytes it takes; refused 3 or 4.
pub fn read_number(bytes: &[u8]) -> Result<(u32, usize), u32> {
    let mut value = 0;
    for group in 0..3 {
        let byte = *bytes.get(group).ok_or(3u32)?;
        value += u32::from(byte % 128) << (7 * group);
        if byte < 128 {
            let shortest = byte != 0 || group == 0;
            return if shortest { Ok((value, group + 1)) } else { Err(4) };
        }
    }
    Err(4)
}

struct Reader<'a> {
    list: &'a [u8],
    next: usize,
}

impl Reader<'_> {
    /// The next number, refused with `number` unless it holds.
    fn number_that(&mut self, number: u32, holds: impl Fn(u32) -> bool) -> Result<u32, Fault> {
        let offset = self.next;
        let (value, length) = read_number(&self.list[offset..]).map_err(|number| Fault { number, offset })?;
        if !holds(value) {
            return Err(Fault { number, offset });
        }
        self.next += length;
        Ok(value)
    }

    fn gate(&mut self, qubits: u32) -> Result<Gate, Fault> {
        let code = self.number_that(7, |code| code < CODES)?;
        let mut named = match code {
            CNOT | CZ => vec![self.another(&[], qubits)?],
            TOFFOLI => self.controls(LEAST_OF_TOFFOLI, qubits)?,
            FREDKIN => self.controls(LEAST_OF_FREDKIN, qubits)?,
            _ => Vec::new(),
        };
        for _ in 0..targets(code) {
            named.push(self.another(&named, qubits)?);
        }
        Ok(Gate { code, qubits: named })
    }

    /// A qubit besides those that the gate has named.
    fn another(&mut self, named: &[u32], qubits: u32) -> Result<u32, Fault> {
        let offset = self.next;
        let qubit = self.number_that(8, |qubit| qubit < qubits)?;
        if named.contains(&qubit) { Err(Fault { number: 9, offset }) } else { Ok(qubit) }
    }

    /// The qubits of a mask, which has to name so many.
    fn controls(&mut self, least: usize, qubits: u32) -> Result<Vec<u32>, Fault> {
        let offset = self.next;
        let mask = self.number_that(8, |mask| mask < 1 << qubits)?;
        let controls: Vec<u32> = (0..qubits).filter(|qubit| mask >> qubit & 1 == 1).collect();
        if controls.len() < least { Err(Fault { number: 17, offset }) } else { Ok(controls) }
    }
}
