//! The groups of cases.

pub mod binding;
pub mod controls;
pub mod damage;
pub mod dense_itself;
pub mod documentation;
pub mod examples;
pub mod gates;
pub mod header;
pub mod inverses;
pub mod invert;
pub mod judge;
pub mod lowering;
pub mod many_qubits;
pub mod map;
pub mod masks;
pub mod one_answer;
pub mod paper;
pub mod places;
pub mod random_pairs;
pub mod readme;
pub mod refusals;
pub mod slow;
pub mod stack;
pub mod vectors;
pub mod verdict;
pub mod widths;
