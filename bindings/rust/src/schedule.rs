//! Schedules: in which order the gates of the two lists are taken.

use crate::{Refusal, raw};

/// The most gates that a list may have.
pub const MOST_GATES: u32 = 4096;

/// What the C interface adds to the number of a refusal.
const REFUSED: u32 = 65_536;

/// The schedule to judge by: one byte for each gate, 0 for list 1 and 1 for list 2.
#[derive(Clone, Copy, Debug, Default, PartialEq, Eq)]
pub enum Schedule<'a> {
    /// The one that keeps both lists equally far along.
    #[default]
    Proportional,
    /// A lent one; refused with 12 if it does not fit the lists.
    Lent(&'a [u8]),
}

/// Fills the first `m + p` bytes of the buffer with the proportional schedule of `m` and `p` gates, leaves the rest
/// alone, and returns `m + p`.
///
/// # Errors
/// [`Refusal::Call`] with 6 where `m` or `p` is over [`MOST_GATES`], then with 15 where the buffer is too short; both
/// leave the buffer alone.
///
/// ```
/// let mut buffer = [9; 8];
/// assert_eq!(gannetrope::fill_proportional(2, 4, &mut buffer), Ok(6));
/// assert_eq!(buffer, [0, 1, 1, 0, 1, 1, 9, 9]);
/// ```
pub fn fill_proportional(m: u32, p: u32, buffer: &mut [u8]) -> Result<usize, Refusal> {
    // SAFETY: the pointer and the length are those of one slice, which is borrowed for the call alone.
    let returned = unsafe { raw::gannetrope_schedule(m, p, buffer.as_mut_ptr(), buffer.len()) };
    match returned.checked_sub(REFUSED) {
        Some(number) => Err(Refusal::Call { number }),
        None => Ok(returned as usize),
    }
}

/// The proportional schedule of `m` and `p` gates.
///
/// # Errors
/// [`Refusal::Call`] with 6 where `m` or `p` is over [`MOST_GATES`].
pub fn proportional(m: u32, p: u32) -> Result<Vec<u8>, Refusal> {
    let mut schedule = vec![0; (m.min(MOST_GATES) + p.min(MOST_GATES)) as usize];
    fill_proportional(m, p, &mut schedule)?;
    Ok(schedule)
}

/// The proportional schedule of two lists. Where a list's head cannot be read there is none, and an empty schedule
/// serves: such a list is refused before any schedule is looked at.
pub(crate) fn proportional_of(list1: &[u8], list2: &[u8]) -> Vec<u8> {
    match (gate_count(list1), gate_count(list2)) {
        (Some(m), Some(p)) => proportional(m, p).unwrap_or_default(),
        _ => Vec::new(),
    }
}

/// The second number of a list.
fn gate_count(list: &[u8]) -> Option<u32> {
    let (_, rest) = number(list)?;
    Some(number(rest)?.0)
}

/// The number that the bytes begin with, and the bytes after it.
fn number(bytes: &[u8]) -> Option<(u32, &[u8])> {
    let last = bytes.iter().take(3).position(|byte| byte & 0x80 == 0)?;
    let (groups, rest) = bytes.split_at(last + 1);
    let value = groups.iter().rev().fold(0, |value, group| value << 7 | u32::from(group & 0x7f));
    Some((value, rest))
}
