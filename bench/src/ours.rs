//! The proved library, as linked.

use independent::file::{Certificate, Lent};

#[rustfmt::skip]
extern "C" {
    fn vartrymoy_check(kind: u32, d: u32, c: u32, marks: *const u8, marks_len: usize,
        action_starts: *const u32, action_starts_len: usize, branch_starts: *const u32, branch_starts_len: usize,
        destinations: *const u32, destinations_len: usize, weights: *const u32, weights_len: usize,
        costs: *const u32, costs_len: usize, claims: *const u64, claims_len: usize, ranks: *const u32, ranks_len: usize,
        choices: *mut u32, choices_len: usize, answer: *mut u32, answer_len: usize) -> u32;
    fn vartrymoy_read(file: *const u8, file_len: usize, header: *mut u32, header_len: usize, marks: *mut u8, marks_len: usize,
        action_starts: *mut u32, action_starts_len: usize, branch_starts: *mut u32, branch_starts_len: usize,
        destinations: *mut u32, destinations_len: usize, weights: *mut u32, weights_len: usize,
        costs: *mut u32, costs_len: usize, claims: *mut u64, claims_len: usize, ranks: *mut u32, ranks_len: usize) -> u32;
    fn vartrymoy_write(kind: u32, d: u32, c: u32, marks: *const u8, marks_len: usize,
        action_starts: *const u32, action_starts_len: usize, branch_starts: *const u32, branch_starts_len: usize,
        destinations: *const u32, destinations_len: usize, weights: *const u32, weights_len: usize,
        costs: *const u32, costs_len: usize, claims: *const u64, claims_len: usize, ranks: *const u32, ranks_len: usize,
        buffer: *mut u8, buffer_len: usize, result: *mut u64, result_len: usize) -> u32;
    fn vartrymoy_answer(file: *const u8, file_len: usize, marks: *mut u8, marks_len: usize,
        action_starts: *mut u32, action_starts_len: usize, branch_starts: *mut u32, branch_starts_len: usize,
        destinations: *mut u32, destinations_len: usize, weights: *mut u32, weights_len: usize,
        costs: *mut u32, costs_len: usize, claims: *mut u64, claims_len: usize, ranks: *mut u32, ranks_len: usize,
        choices: *mut u32, choices_len: usize, text: *mut u8, text_len: usize, result: *mut u64, result_len: usize) -> u32;
}

/// Number, value, action and kind.
#[rustfmt::skip]
pub fn check(t: &Certificate, choices: &mut [u32]) -> [u32; 4] {
    let mut answer = [0; 4];
    unsafe {
        vartrymoy_check(t.kind, t.d, t.c, t.marks.as_ptr(), t.marks.len(),
            t.action_starts.as_ptr(), t.action_starts.len(), t.branch_starts.as_ptr(), t.branch_starts.len(),
            t.destinations.as_ptr(), t.destinations.len(), t.weights.as_ptr(), t.weights.len(),
            t.costs.as_ptr(), t.costs.len(), t.claims.as_ptr(), t.claims.len(), t.ranks.as_ptr(), t.ranks.len(),
            choices.as_mut_ptr(), choices.len(), answer.as_mut_ptr(), answer.len());
    }
    answer
}

/// 0, or the number of the refusal.
#[rustfmt::skip]
pub fn read(file: &[u8], t: &mut Lent) -> u32 {
    let mut header = [0; 6];
    unsafe {
        vartrymoy_read(file.as_ptr(), file.len(), header.as_mut_ptr(), header.len(), t.marks.as_mut_ptr(), t.marks.len(),
            t.action_starts.as_mut_ptr(), t.action_starts.len(), t.branch_starts.as_mut_ptr(), t.branch_starts.len(),
            t.destinations.as_mut_ptr(), t.destinations.len(), t.weights.as_mut_ptr(), t.weights.len(),
            t.costs.as_mut_ptr(), t.costs.len(), t.claims.as_mut_ptr(), t.claims.len(), t.ranks.as_mut_ptr(), t.ranks.len())
    }
}

/// 0 and the length of the file, or number and place of the refusal.
#[rustfmt::skip]
pub fn write(t: &Certificate, buffer: &mut [u8]) -> [u64; 2] {
    let mut result = [0; 2];
    unsafe {
        vartrymoy_write(t.kind, t.d, t.c, t.marks.as_ptr(), t.marks.len(),
            t.action_starts.as_ptr(), t.action_starts.len(), t.branch_starts.as_ptr(), t.branch_starts.len(),
            t.destinations.as_ptr(), t.destinations.len(), t.weights.as_ptr(), t.weights.len(),
            t.costs.as_ptr(), t.costs.len(), t.claims.as_ptr(), t.claims.len(), t.ranks.as_ptr(), t.ranks.len(),
            buffer.as_mut_ptr(), buffer.len(), result.as_mut_ptr(), result.len());
    }
    result
}

/// The number that is printed, or that of the refusal where nothing is.
#[rustfmt::skip]
pub fn answer(file: &[u8], t: &mut Lent, choices: &mut [u32], text: &mut [u8], result: &mut [u64]) -> u32 {
    unsafe {
        vartrymoy_answer(file.as_ptr(), file.len(), t.marks.as_mut_ptr(), t.marks.len(),
            t.action_starts.as_mut_ptr(), t.action_starts.len(), t.branch_starts.as_mut_ptr(), t.branch_starts.len(),
            t.destinations.as_mut_ptr(), t.destinations.len(), t.weights.as_mut_ptr(), t.weights.len(),
            t.costs.as_mut_ptr(), t.costs.len(), t.claims.as_mut_ptr(), t.claims.len(), t.ranks.as_mut_ptr(), t.ranks.len(),
            choices.as_mut_ptr(), choices.len(), text.as_mut_ptr(), text.len(), result.as_mut_ptr(), result.len())
    }
}
