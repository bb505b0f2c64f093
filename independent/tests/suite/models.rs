//! The small models of document 01, and what the tests share.

use independent::check::check;
use independent::file::{read, write_into, Certificate, Header};
use independent::kind::Kind;
use independent::tables::NONE;
use independent::verdict::{Refusal, Verdict};

/// Stands in choice lists that must be left alone.
pub const UNTOUCHED: u32 = 77;
/// Stands in tables and buffers before they are lent.
pub const FILLING: u8 = 0xee;
pub const FILLING_WORD: u32 = 0xeeee_eeee;
pub const FILLING_LONG: u64 = 0xeeee_eeee_eeee_eeee;

pub fn model_a(kind: u32, claims: [u64; 3], ranks: &[u32]) -> Certificate {
    let cost = Kind::numbered(kind).is_some_and(|kind| kind.cost);
    Certificate {
        kind,
        d: 4,
        c: if cost { 1 } else { 8 },
        marks: vec![0, 0, 1],
        action_starts: vec![0, 2, 3, 4],
        branch_starts: vec![0, 3, 4, 5, 6],
        destinations: vec![0, 1, 2, 1, 1, 2],
        weights: vec![2, 1, 1, 4, 4, 4],
        costs: if cost { vec![3, 0, 5] } else { vec![] },
        claims: claims.to_vec(),
        ranks: ranks.to_vec(),
    }
}

pub fn model_b(kind: u32, claims: [u64; 3], ranks: &[u32]) -> Certificate {
    Certificate {
        kind,
        d: 4,
        c: 4,
        marks: vec![0, 1, 0],
        action_starts: vec![0, 2, 3, 4],
        branch_starts: vec![0, 1, 3, 4, 5],
        destinations: vec![0, 1, 2, 1, 2],
        weights: vec![4, 1, 3, 4, 4],
        costs: vec![],
        claims: claims.to_vec(),
        ranks: ranks.to_vec(),
    }
}

/// An accepted claim of each kind over model A.
pub fn held(kind: u32) -> Certificate {
    match kind {
        1 => model_a(1, [4, 0, 8], &[]),
        2 => model_a(2, [0, 0, 8], &[NONE, NONE, 0]),
        3 => model_a(3, [0, 0, 8], &[]),
        4 => model_a(4, [4, 0, 8], &[1, NONE, 0]),
        5 => model_a(5, [9, 0, 5], &[]),
        6 => model_a(6, [3, 0, 5], &[]),
        7 => model_a(7, [0, 0, 0], &[NONE, NONE, 0]),
        8 => model_a(8, [6, 0, 0], &[1, NONE, 0]),
        _ => panic!("no kind {kind}"),
    }
}

/// Checks with a choice list of the right length.
pub fn checked(claim: &Certificate) -> (Verdict, Vec<u32>) {
    let some = Kind::numbered(claim.kind).is_some_and(|kind| kind.some);
    let length = if some { claim.marks.len() } else { 0 };
    checked_with_choices(claim, length)
}

pub fn checked_with_choices(claim: &Certificate, length: usize) -> (Verdict, Vec<u32>) {
    let mut choices = vec![UNTOUCHED; length];
    let verdict = check(
        claim.kind,
        claim.d,
        claim.c,
        &claim.marks,
        &claim.action_starts,
        &claim.branch_starts,
        &claim.destinations,
        &claim.weights,
        &claim.costs,
        &claim.claims,
        &claim.ranks,
        &mut choices,
    );
    (verdict, choices)
}

pub fn written(claim: &Certificate, buffer: &mut [u8]) -> Result<usize, Refusal> {
    write_into(
        claim.kind,
        claim.d,
        claim.c,
        &claim.marks,
        &claim.action_starts,
        &claim.branch_starts,
        &claim.destinations,
        &claim.weights,
        &claim.costs,
        &claim.claims,
        &claim.ranks,
        buffer,
    )
}

/// Tables to lend, of given lengths.
#[derive(Clone, Debug, PartialEq, Eq)]
pub struct Tables(pub Certificate);

impl Tables {
    pub fn new(states: usize, actions: usize, branches: usize) -> Tables {
        Tables(Certificate {
            kind: 0,
            d: 0,
            c: 0,
            marks: vec![FILLING; states],
            action_starts: vec![FILLING_WORD; states + 1],
            branch_starts: vec![FILLING_WORD; actions + 1],
            destinations: vec![FILLING_WORD; branches],
            weights: vec![FILLING_WORD; branches],
            costs: vec![FILLING_WORD; states],
            claims: vec![FILLING_LONG; states],
            ranks: vec![FILLING_WORD; states],
        })
    }

    pub fn read(&mut self, bytes: &[u8]) -> Result<Header, u32> {
        read(bytes, &mut self.0.lent())
    }
}

/// Puts a word of a file.
pub fn put(file: &mut [u8], place: usize, word: u32) {
    file[place..place + 4].copy_from_slice(&word.to_be_bytes());
}

/// FNV-1a.
pub fn hash(bytes: impl Iterator<Item = u8>) -> u64 {
    bytes.fold(0xcbf2_9ce4_8422_2325, |hash, byte| {
        (hash ^ u64::from(byte)).wrapping_mul(0x0100_0000_01b3)
    })
}
