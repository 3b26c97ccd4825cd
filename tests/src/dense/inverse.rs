//! The list of a list's inverse, and what its writer does to a buffer.

use gannetrope::Refusal;

use super::reader::{Circuit, read_list};
use crate::circuits::list;

/// The refusal of a buffer that is too short.
const SHORT_BUFFER: u32 = 16;

/// The gates in opposite order, each by its inverse.
pub fn undone(circuit: &Circuit) -> Circuit {
    Circuit { qubits: circuit.qubits, gates: circuit.gates.iter().rev().map(|gate| gate.inverse()).collect() }
}

/// Writes the inverse to the front of a buffer and returns its length.
pub fn fill_inverse(bytes: &[u8], buffer: &mut [u8]) -> Result<usize, Refusal> {
    let circuit = read_list(bytes).map_err(|fault| Refusal::Byte {
        number: fault.number,
        list: 1,
        offset: fault.offset as u32,
    })?;
    let inverse = list(&undone(&circuit));
    let front = buffer.get_mut(..inverse.len()).ok_or(Refusal::Call { number: SHORT_BUFFER })?;
    front.copy_from_slice(&inverse);
    Ok(inverse.len())
}
