//! The inverse of a list: its gates in opposite order, each undone.

use crate::{Refusal, raw};

/// The numbers that the C interface answers with: the kind, the bytes written, and a refusal's number, list and offset.
type Numbers = [u64; 5];

/// The kinds of answer.
const WRITTEN: u64 = 0;
const REFUSED: u64 = 2;

/// Writes the list of the inverse to the front of the buffer, leaves the rest alone, and returns its length, which is
/// that of the list.
///
/// # Errors
/// [`Refusal::Byte`] with 3 to 10 or 17 and list 1 where the list is not valid, then [`Refusal::Call`] with 16 where
/// the buffer is shorter than the inverse; both leave the buffer alone.
///
/// ```
/// let list = [2, 2, 6, 1, 8, 0, 1]; // two qubits, two gates: T 1, CNOT 0 1
/// let mut buffer = [9; 8];
/// assert_eq!(gannetrope::fill_inverse(&list, &mut buffer), Ok(7));
/// assert_eq!(buffer, [2, 2, 8, 0, 1, 7, 1, 9]); // CNOT 0 1, T† 1
/// ```
pub fn fill_inverse(list: &[u8], buffer: &mut [u8]) -> Result<usize, Refusal> {
    let mut numbers = Numbers::default();
    // SAFETY: each pointer comes with its own slice's length; the buffer and the numbers are borrowed mutably, so neither
    // overlaps another or the list.
    let status = unsafe {
        raw::gannetrope_inverse(
            list.as_ptr(),
            list.len(),
            buffer.as_mut_ptr(),
            buffer.len(),
            numbers.as_mut_ptr(),
            numbers.len(),
        )
    };
    assert_eq!(status, 0, "the numbers are enough");
    written(numbers)
}

/// The list of the inverse.
///
/// # Errors
/// [`Refusal::Byte`] with 3 to 10 or 17 and list 1 where the list is not valid.
///
/// ```
/// let list = [2, 2, 6, 1, 8, 0, 1]; // two qubits, two gates: T 1, CNOT 0 1
/// let undone = gannetrope::inverse(&list)?;
/// assert_eq!(undone, [2, 2, 8, 0, 1, 7, 1]); // CNOT 0 1, T† 1
/// assert_eq!(gannetrope::inverse(&undone)?, list);
/// # Ok::<(), gannetrope::Refusal>(())
/// ```
pub fn inverse(list: &[u8]) -> Result<Vec<u8>, Refusal> {
    let mut inverse = vec![0; list.len()];
    fill_inverse(list, &mut inverse)?;
    Ok(inverse)
}

/// What the numbers say.
fn written(numbers: Numbers) -> Result<usize, Refusal> {
    let [kind, bytes, refusal @ ..] = numbers;
    match kind {
        WRITTEN => Ok(usize::try_from(bytes).expect("no more bytes than the buffer has")),
        REFUSED => {
            let [number, list, offset] = refusal.map(|part| u32::try_from(part).expect("every number is below 2^32"));
            Err(match number {
                3..=10 | 17 => Refusal::Byte { number, list, offset },
                _ => Refusal::Call { number },
            })
        }
        kind => unreachable!("the contract has no answer of kind {kind}"),
    }
}
