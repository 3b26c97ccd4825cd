//! Where a call runs: on a stack that is long enough.

use std::cell::Cell;
use std::panic::resume_unwind;
use std::{ptr, thread};

/// The stack of the threads made here; what is not touched costs nothing.
const LENGTH: usize = 16 << 20;

/// What a call is sure to find free, as the header asks; it uses up to 4.8 MB.
const NEEDED: usize = 8 << 20;

thread_local! {
    /// Where the stack begins, on the threads made here.
    static BEGIN: Cell<Option<usize>> = const { Cell::new(None) };
}

/// Runs work that judges many pairs, so that they share one thread.
///
/// A judging call needs more stack than a caller may have left, so each one made elsewhere gets a thread of its own. In
/// here they run in place, unless the work itself has used up too much of the stack.
///
/// # Panics
/// If the work does, or if the system gives no thread.
///
/// ```
/// use gannetrope::{Limits, Schedule, judge, with_stack};
///
/// let pairs = [([1, 1, 0, 0], [1, 1, 0, 0]), ([1, 1, 0, 0], [1, 1, 2, 0])];
/// let lines = with_stack(|| {
///     pairs.map(|(u, v)| judge(&u, &v, Schedule::Proportional, Limits::default()).report().to_string())
/// });
/// assert!(lines[0].starts_with("equal") && lines[1].starts_with("different"));
/// ```
pub fn with_stack<R: Send>(work: impl FnOnce() -> R + Send) -> R {
    if has_room() {
        return work();
    }
    let begin = || {
        BEGIN.set(Some(here()));
        work()
    };
    thread::scope(|scope| {
        let thread = thread::Builder::new().stack_size(LENGTH).spawn_scoped(scope, begin).expect("a thread");
        thread.join().unwrap_or_else(|panic| resume_unwind(panic))
    })
}

fn has_room() -> bool {
    BEGIN.get().is_some_and(|begin| begin.abs_diff(here()) <= LENGTH - NEEDED)
}

/// An address on the stack.
#[inline(never)]
fn here() -> usize {
    let local = 0u8;
    ptr::from_ref(std::hint::black_box(&local)).addr()
}
