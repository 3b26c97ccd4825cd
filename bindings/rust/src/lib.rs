//! Gannetrope judges whether two Clifford+T circuits are the same operator up to a global phase, exactly.
//!
//! This crate is a thin, safe layer over the proved static library; nothing that decides a verdict is in it. [`judge`]
//! owns the stores that a call needs and takes the schedule that suits most pairs; [`judge_in`] lends the caller's own
//! columns and schedule. [`inverse`] writes the list that undoes a list.
//!
//! A gate list is bytes: the number of qubits (1 to 16), the number of gates (at most 4,096), then for each gate its
//! code and what the table says.
//!
//! | codes | gates | what follows the code |
//! |---|---|---|
//! | 0, 1, 2, 3 | X, Y, Z, H | the qubit |
//! | 4, 5, 6, 7 | S, S†, T, T† | the qubit |
//! | 8, 9 | CNOT, CZ | the control, the target |
//! | 10 | Toffoli: flips the target where all controls are 1 | a mask of two or more controls, the target |
//! | 11 | Fredkin: swaps the targets where all controls are 1 | a mask of one or more controls, the two targets |
//!
//! Bit q of a mask names qubit q. So `[3, 1, 10, 0b011, 2]` is three qubits and one gate, which flips qubit 2 where
//! qubits 0 and 1 are 1.
//!
//! A number over 127 takes two or three bytes of seven bits each, the lowest first, with the top bit set in all but the
//! last.
//!
//! # Building
//!
//! `scripts/build library` makes the static library that this crate links, in `target/staticlib` of the repository;
//! `GANNETROPE_LIB_DIR` names another directory.

mod inverse;
mod judge;
pub mod raw;
mod report;
mod schedule;
mod stack;
mod store;

pub use inverse::{fill_inverse, inverse};
pub use judge::{Judged, Limits, judge, judge_in};
pub use report::{Entry, Refusal, Report, Verdict};
pub use schedule::{MOST_GATES, Schedule, fill_proportional, proportional};
pub use stack::with_stack;
pub use store::{Columns, MOST_SLOTS, Node, Store};
