//! The proved library, as linked: `include/vartrymoy.h` says what it promises.

const STATES: usize = 20_000;
const ACTIONS: usize = 100_000;
const BRANCHES: usize = 1_000_000;
/// The most bytes that any file has.
pub const MOST_BYTES: usize = 8_820_034;
/// The most bytes that a verdict's line and the line of a choice take.
const VERDICT: usize = 64;
const CHOICE: usize = 32;

#[rustfmt::skip]
extern "C" {
    fn vartrymoy_answer(file: *const u8, file_len: usize, marks: *mut u8, marks_len: usize,
        action_starts: *mut u32, action_starts_len: usize, branch_starts: *mut u32, branch_starts_len: usize,
        destinations: *mut u32, destinations_len: usize, weights: *mut u32, weights_len: usize,
        costs: *mut u32, costs_len: usize, claims: *mut u64, claims_len: usize, ranks: *mut u32, ranks_len: usize,
        choices: *mut u32, choices_len: usize, text: *mut u8, text_len: usize, result: *mut u64, result_len: usize) -> u32;
}

/// Tables for document 01's limits, which are lent to the library again for each file.
pub struct Desk {
    marks: Vec<u8>,
    action_starts: Vec<u32>,
    branch_starts: Vec<u32>,
    destinations: Vec<u32>,
    weights: Vec<u32>,
    costs: Vec<u32>,
    claims: Vec<u64>,
    ranks: Vec<u32>,
    choices: Vec<u32>,
    text: Vec<u8>,
}

impl Desk {
    pub fn new() -> Desk {
        Desk {
            marks: vec![0; STATES],
            action_starts: vec![0; STATES + 1],
            branch_starts: vec![0; ACTIONS + 1],
            destinations: vec![0; BRANCHES],
            weights: vec![0; BRANCHES],
            costs: vec![0; STATES],
            claims: vec![0; STATES],
            ranks: vec![0; STATES],
            choices: vec![0; STATES],
            text: vec![0; VERDICT + STATES * CHOICE],
        }
    }

    /// The number of the answer to a file, and the bytes to print.
    #[rustfmt::skip]
    pub fn answer(&mut self, file: &[u8]) -> (u32, &[u8]) {
        let mut result = [0u64; 2];
        let number = unsafe {
            vartrymoy_answer(file.as_ptr(), file.len(), self.marks.as_mut_ptr(), self.marks.len(),
                self.action_starts.as_mut_ptr(), self.action_starts.len(), self.branch_starts.as_mut_ptr(), self.branch_starts.len(),
                self.destinations.as_mut_ptr(), self.destinations.len(), self.weights.as_mut_ptr(), self.weights.len(),
                self.costs.as_mut_ptr(), self.costs.len(), self.claims.as_mut_ptr(), self.claims.len(),
                self.ranks.as_mut_ptr(), self.ranks.len(), self.choices.as_mut_ptr(), self.choices.len(),
                self.text.as_mut_ptr(), self.text.len(), result.as_mut_ptr(), result.len())
        };
        (number, &self.text[..result[1] as usize])
    }
}
