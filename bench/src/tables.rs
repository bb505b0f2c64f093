//! Tables to measure on: every state has five actions, every action ten branches, and the claim is accepted.

use independent::file::Certificate;
pub use independent::generate::limits::{accepted, random};

/// The same with a claim out of range at state 0: refused right after the rows.
pub fn rows_only(branches: usize) -> Certificate {
    let mut made = accepted(1, branches);
    made.claims[0] = u64::from(made.c) + 1;
    made
}
