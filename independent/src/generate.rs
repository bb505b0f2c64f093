//! A seeded generator of certificate files. Same seed, same files.
//!
//! Each answer number can be reached by a file, though not at each place: 4
//! only with n = 0, as a greater n is refused 33, and 5 only at 3, with m = 0,
//! as all other lengths follow from the counts.

mod damage;
pub mod limits;
mod model;
mod near;
pub mod rng;

use rng::Rng;

use crate::file::{write, Certificate};
use crate::kind::Kind;
use crate::program::{answer, Room};

/// Attempts after which a case is taken whatever its answer.
const MOST_ATTEMPTS: usize = 1_000;
/// Cases until a file that fills the room comes round again.
const FILLING_EVERY: u64 = 2_000;
const KINDS: u64 = 8;
const TABLE_REFUSALS: [u32; 13] = [2, 3, 4, 5, 6, 7, 8, 9, 10, 11, 12, 13, 14];
/// In the order in which they are looked for.
const BYTE_REFUSALS: [u32; 5] = [31, 32, 1, 33, 34];
const CONDITIONS: [u32; 4] = [21, 22, 23, 24];

/// What a case is to be.
#[derive(Clone, Copy)]
enum Plan {
    Holds,
    /// Breaks this condition first.
    Misses(u32),
    /// Has damaged tables; the number tells such slots of a turn apart.
    Tables(u64),
    /// Has damaged bytes; likewise.
    Bytes(u64),
    /// Has any changes, and any answer.
    Free,
    /// Fills the room.
    Full,
    /// Is one byte longer than any file that fits the room.
    Overfull,
}

const TABLE_SLOTS: u64 = 4;
const BYTE_SLOTS: u64 = 2;
/// One turn: what is made of each kind before it starts again.
const TURN: [Plan; 25] = [
    Plan::Holds,
    Plan::Misses(21),
    Plan::Tables(0),
    Plan::Misses(22),
    Plan::Holds,
    Plan::Misses(23),
    Plan::Bytes(0),
    Plan::Misses(24),
    Plan::Tables(1),
    Plan::Holds,
    Plan::Misses(21),
    Plan::Misses(22),
    Plan::Holds,
    Plan::Misses(23),
    Plan::Tables(2),
    Plan::Misses(24),
    Plan::Holds,
    Plan::Misses(21),
    Plan::Bytes(1),
    Plan::Misses(22),
    Plan::Tables(3),
    Plan::Misses(23),
    Plan::Holds,
    Plan::Misses(24),
    Plan::Free,
];

/// One case of a seed.
pub fn case(seed: u64, index: u64) -> Vec<u8> {
    let rng = &mut Rng::new(seed, index);
    let kind = (index % KINDS) as u32 + 1;
    let turn = index / (KINDS * TURN.len() as u64);
    // Tells apart the slots of one plan, over all kinds and turns.
    let count = |slot, slots| (turn * KINDS + index % KINDS) * slots + slot;
    match plan(index) {
        Plan::Holds => write(&model::holding(rng, kind)),
        Plan::Misses(number) if has_condition(kind, number) => {
            attempts(number, || near_miss(rng, kind, number))
        }
        Plan::Misses(_) | Plan::Free => free(rng, kind),
        Plan::Tables(slot) => {
            let number = in_turn(&TABLE_REFUSALS, count(slot, TABLE_SLOTS));
            let kind = kind_for(rng, kind, number);
            attempts(number, || damaged_tables(rng, kind, number))
        }
        Plan::Bytes(slot) => {
            let number = in_turn(&BYTE_REFUSALS, count(slot, BYTE_SLOTS));
            attempts(number, || damaged_bytes(rng, kind, number))
        }
        Plan::Full => write(&model::filling(rng)),
        Plan::Overfull => overfull(rng),
    }
}

fn plan(index: u64) -> Plan {
    const FULL: u64 = FILLING_EVERY / 2 - 1;
    const OVERFULL: u64 = FILLING_EVERY - 1;
    match index % FILLING_EVERY {
        FULL => Plan::Full,
        OVERFULL => Plan::Overfull,
        _ => in_turn(&TURN, index / KINDS),
    }
}

fn in_turn<T: Copy>(entries: &[T], count: u64) -> T {
    entries[(count % entries.len() as u64) as usize]
}

fn has_condition(kind: u32, number: u32) -> bool {
    Kind::numbered(kind).is_some_and(|kind| kind.has_condition(number))
}

/// This kind, or one that has the table which the refusal is about.
fn kind_for(rng: &mut Rng, kind: u32, number: u32) -> u32 {
    match number {
        12 => rng.pick(&[5, 6, 7, 8]),
        14 => rng.pick(&[2, 4, 7, 8]),
        _ => kind,
    }
}

/// Tries until a file gets the wanted answer.
fn attempts(wanted: u32, mut attempt: impl FnMut() -> Vec<u8>) -> Vec<u8> {
    let mut file = attempt();
    for _ in 1..MOST_ATTEMPTS {
        if answer(&file, Room::CHECK).verdict.number() == wanted {
            break;
        }
        file = attempt();
    }
    file
}

/// At times with a second change, so that the order of the conditions shows.
fn near_miss(rng: &mut Rng, kind: u32, number: u32) -> Vec<u8> {
    let mut made = model::holding(rng, kind);
    near::miss(rng, &mut made, number);
    if rng.one_in(4) {
        any_miss(rng, &mut made);
    }
    write(&made)
}

fn any_miss(rng: &mut Rng, made: &mut Certificate) {
    let number = rng.pick(&CONDITIONS);
    near::miss(rng, made, number);
}

/// At times with a second fault, so that the order of the refusals shows.
fn damaged_tables(rng: &mut Rng, kind: u32, number: u32) -> Vec<u8> {
    let mut made = model::holding(rng, kind);
    if rng.one_in(4) {
        any_miss(rng, &mut made);
    }
    if rng.one_in(2) {
        let later = damages_from(&made, number);
        let reach = if rng.one_in(3) { later.len() } else { 3 };
        let second = later[rng.index(reach.min(later.len()))];
        damage::tables(rng, &mut made, second);
    }
    damage::tables(rng, &mut made, number);
    write(&made)
}

/// The refusals from `least` on that damage to the tables can lead to.
fn damages_from(made: &Certificate, least: u32) -> Vec<u32> {
    let has_table = |number| match number {
        12 => !made.costs.is_empty(),
        14 => !made.ranks.is_empty(),
        _ => true,
    };
    let fits = |&number: &u32| number >= least && has_table(number);
    TABLE_REFUSALS.into_iter().filter(fits).collect()
}

/// At times with a second fault that is looked for later.
fn damaged_bytes(rng: &mut Rng, kind: u32, number: u32) -> Vec<u8> {
    let mut file = write(&model::holding(rng, kind));
    let mut later = BYTE_REFUSALS
        .into_iter()
        .skip_while(|&other| other != number)
        .skip(1);
    let second = later.nth(rng.index(BYTE_REFUSALS.len()));
    if let Some(second) = second {
        damage::bytes(rng, &mut file, second);
    }
    damage::bytes(rng, &mut file, number);
    file
}

/// Any number of changes and faults; the answer may be any.
fn free(rng: &mut Rng, kind: u32) -> Vec<u8> {
    let mut made = model::holding(rng, kind);
    for _ in 0..rng.index(4) {
        any_miss(rng, &mut made);
    }
    if rng.one_in(8) {
        let number = rng.pick(&damages_from(&made, 2));
        damage::tables(rng, &mut made, number);
    }
    let mut file = write(&made);
    if rng.one_in(4) {
        damage::any_bytes(rng, &mut file);
    }
    file
}

/// Its length is looked at before its other faults.
fn overfull(rng: &mut Rng) -> Vec<u8> {
    let mut file = write(&model::filling(rng));
    let number = rng.pick(&BYTE_REFUSALS);
    damage::bytes(rng, &mut file, number);
    file.resize(Room::CHECK.most_bytes() + 1, 0);
    file
}
