//! Damage: tables that are not well-formed, and bytes that are no file.

use super::model::kind_of;
use super::rng::Rng;
use crate::file::{set_length_field, Certificate, HEADER_BYTES};
use crate::program::Room;
use crate::tables::{
    MAX_ACTIONS, MAX_BRANCHES, MAX_CLAIM_SCALE, MAX_COST, MAX_COST_CLAIM, MAX_STATES,
    MAX_WEIGHT_SCALE, NONE,
};

const VERSION_PLACE: usize = 4;
const KIND_PLACE: usize = 5;
const STATES_PLACE: usize = 14;
const ACTIONS_PLACE: usize = 18;
const BRANCHES_PLACE: usize = 22;

/// Damages the tables so that refusal `number`, 2 to 14, may follow. The kind
/// has costs for 12 and ranks for 14; there are states, actions and branches.
pub fn tables(rng: &mut Rng, made: &mut Certificate, number: u32) {
    match number {
        2 => made.d = above_or(rng, 0, MAX_WEIGHT_SCALE),
        3 => made.c = bad_claim_scale(rng, made),
        4 => drop_states(rng, made),
        5 => made.branch_starts.truncate(1),
        6 => damage_starts(rng, &mut made.action_starts),
        7 => damage_branch_starts(rng, made),
        8 => damage_mark(rng, made),
        9 => damage_destination(rng, made),
        10 => *entry(rng, &mut made.weights) = above_or(rng, 0, made.d),
        11 => damage_sum(rng, made),
        12 => *entry(rng, &mut made.costs) = above(rng, MAX_COST),
        13 => damage_claim(rng, made),
        _ => damage_rank(rng, made),
    }
}

fn bad_claim_scale(rng: &mut Rng, made: &Certificate) -> u32 {
    let greatest = if kind_of(made).cost {
        1
    } else {
        MAX_CLAIM_SCALE
    };
    above_or(rng, 0, greatest)
}

/// Leaves no states, and at times no actions either.
fn drop_states(rng: &mut Rng, made: &mut Certificate) {
    made.marks.clear();
    made.action_starts.truncate(1);
    made.costs.clear();
    made.claims.clear();
    made.ranks.clear();
    if rng.one_in(3) {
        made.branch_starts.truncate(1);
    }
}

fn damage_starts(rng: &mut Rng, starts: &mut [u32]) {
    let last = starts.len() - 1;
    let place = rng.index(starts.len());
    match rng.below(5) {
        0 => starts[place] = starts[place].wrapping_sub(1),
        1 => starts[place] = starts[place].wrapping_add(1),
        2 => starts[place] = starts[rng.index(starts.len())],
        3 => starts[place] = rng.word_between(0, u32::MAX),
        _ => starts[last] = starts[last].wrapping_sub(1),
    }
}

fn damage_branch_starts(rng: &mut Rng, made: &mut Certificate) {
    match rng.below(8) {
        0 => {
            made.destinations.clear();
            made.weights.clear();
        }
        1 => {
            made.destinations.push(0);
            made.weights.push(1);
        }
        _ => damage_starts(rng, &mut made.branch_starts),
    }
}

fn damage_mark(rng: &mut Rng, made: &mut Certificate) {
    let mark = if rng.one_in(2) {
        2
    } else {
        rng.word_between(2, 255) as u8
    };
    *entry(rng, &mut made.marks) = mark;
}

/// Damages a destination, and at times the weight beside it.
fn damage_destination(rng: &mut Rng, made: &mut Certificate) {
    let greatest = made.marks.len() as u32 - 1;
    let branch = rng.index(made.destinations.len());
    made.destinations[branch] = above(rng, greatest);
    if rng.one_in(4) {
        made.weights[branch] = 0;
    }
}

/// Moves a weight within its range, at times making up for it elsewhere.
fn damage_sum(rng: &mut Rng, made: &mut Certificate) {
    let d = made.d;
    let more = |weight: u32| (weight + 1).min(d);
    let less = |weight: u32| (weight - 1).max(1);
    let changed = entry(rng, &mut made.weights);
    match rng.below(3) {
        0 => *changed = more(*changed),
        1 => *changed = less(*changed),
        _ => {
            *changed = more(*changed);
            let other = entry(rng, &mut made.weights);
            *other = less(*other);
        }
    }
}

fn damage_claim(rng: &mut Rng, made: &mut Certificate) {
    let greatest = if kind_of(made).cost {
        MAX_COST_CLAIM
    } else {
        u64::from(made.c)
    };
    let claim = if rng.one_in(2) {
        greatest + 1
    } else {
        rng.between(greatest + 1, u64::MAX)
    };
    *entry(rng, &mut made.claims) = claim;
}

fn damage_rank(rng: &mut Rng, made: &mut Certificate) {
    let states = made.marks.len() as u32;
    let rank = match rng.below(3) {
        0 => states,
        1 => NONE - 1,
        _ => rng.word_between(states, NONE - 1),
    };
    *entry(rng, &mut made.ranks) = rank;
}

/// Damages a file so that refusal `number`, 1 or 31 to 34, may follow.
pub fn bytes(rng: &mut Rng, file: &mut Vec<u8>, number: u32) {
    match number {
        1 => file[KIND_PLACE] = rng.pick(&[0, 9, 16, 255]),
        31 => damage_length(rng, file),
        32 => file[VERSION_PLACE] = rng.pick(&[0, 2, 129, 255]),
        33 => raise_count(rng, file),
        _ => mismatch_counts(rng, file),
    }
}

/// Changes some bytes anywhere.
pub fn any_bytes(rng: &mut Rng, file: &mut [u8]) {
    for _ in 0..1 + rng.low_index(4) {
        *entry(rng, file) = rng.word_between(0, 255) as u8;
    }
}

fn damage_length(rng: &mut Rng, file: &mut Vec<u8>) {
    let length = file.len();
    match rng.below(6) {
        0 => file.truncate(rng.index(HEADER_BYTES)),
        1 => {
            file.truncate(rng.pick(&[4, 5, 14, HEADER_BYTES - 1, HEADER_BYTES - 1]));
            set_length_field(file);
        }
        2 => file.truncate(rng.index(length)),
        3 => put_count(file, 0, length as u32),
        4 => put_count(file, 0, rng.pick(&[length as u32 - 5, length as u32 - 3])),
        _ => file.push(0),
    }
}

fn raise_count(rng: &mut Rng, file: &mut [u8]) {
    let (place, room, limit) = rng.pick(&[
        (STATES_PLACE, Room::CHECK.states, MAX_STATES),
        (ACTIONS_PLACE, Room::CHECK.actions, MAX_ACTIONS),
        (BRANCHES_PLACE, Room::CHECK.branches, MAX_BRANCHES),
    ]);
    let greatest = rng.pick(&[room, limit]) as u32;
    put_count(file, place, above(rng, greatest));
}

fn mismatch_counts(rng: &mut Rng, file: &mut Vec<u8>) {
    match rng.below(4) {
        0 => file.truncate(HEADER_BYTES + rng.index(file.len() - HEADER_BYTES)),
        1 => {
            let trailing = rng.between(1, 9);
            file.extend((0..trailing).map(|byte| byte as u8));
        }
        2 => {
            let place = rng.pick(&[STATES_PLACE, ACTIONS_PLACE, BRANCHES_PLACE]);
            put_count(file, place, rng.word_between(0, 20));
        }
        _ => file[KIND_PLACE] = rng.word_between(1, 8) as u8,
    }
    set_length_field(file);
}

fn put_count(file: &mut [u8], place: usize, count: u32) {
    file[place..place + 4].copy_from_slice(&count.to_be_bytes());
}

fn entry<'a, T>(rng: &mut Rng, table: &'a mut [T]) -> &'a mut T {
    &mut table[rng.index(table.len())]
}

/// A number above `greatest`, mostly the next one.
fn above(rng: &mut Rng, greatest: u32) -> u32 {
    match rng.below(4) {
        0 => u32::MAX,
        1 => rng.word_between(greatest + 1, u32::MAX),
        _ => greatest + 1,
    }
}

fn above_or(rng: &mut Rng, other: u32, greatest: u32) -> u32 {
    if rng.one_in(3) {
        other
    } else {
        above(rng, greatest)
    }
}
