//! Both writers on generated tables, more than half of them damaged, with buffers of many lengths: the same answer and the same
//! buffer, or this stops.

use std::collections::BTreeMap;

use independent::file::Certificate;
use independent::generate;
use independent::program::{read, Room};
use independent::verdict::Refusal;

use crate::{independent_write, ours, tables};

/// Prints how often each number came back; 0 is a file that was written.
pub fn compare(seed: u64, count: u64) {
    let mut random = tables::random();
    let mut numbers: BTreeMap<u64, u64> = BTreeMap::new();
    for index in 0..count {
        let case = generate::case(seed, index);
        let Ok(mut tables) = read(&case, Room::CHECK) else {
            continue;
        };
        damage(&mut tables, &mut random);
        let before: Vec<u8> = (0..room(case.len(), &mut random))
            .map(|_| random(256) as u8)
            .collect();
        let number = both(&tables, &before, index);
        *numbers.entry(number).or_default() += 1;
    }
    println!("{numbers:?}");
}

/// A buffer one byte shorter than the file, as long, one byte longer, and others.
fn room(file: usize, random: &mut impl FnMut(usize) -> usize) -> usize {
    match random(6) {
        0 => file - 1,
        1 => file,
        2 => file + 1,
        3 => random(file + 1),
        4 => file + 100,
        _ => Room::CHECK.most_bytes(),
    }
}

fn both(tables: &Certificate, before: &[u8], index: u64) -> u64 {
    let (mut first, mut second) = (before.to_vec(), before.to_vec());
    let [number, value] = ours::write(tables, &mut first);
    let theirs = match independent_write(tables, &mut second) {
        Ok(length) => [0, length as u64],
        Err(Refusal { number, place }) => [number, place].map(u64::from),
    };
    assert_eq!([number, value], theirs, "case {index}");
    assert!(first == second, "the buffer of case {index}");
    let written = if number == 0 { value as usize } else { 0 };
    assert!(
        first[written..] == before[written..],
        "the rest of the buffer of case {index}"
    );
    number
}

/// A length, an entry, the kind or a scale, or nothing.
fn damage(t: &mut Certificate, random: &mut impl FnMut(usize) -> usize) {
    let states = t.marks.len();
    match random(24) {
        0 => t.marks.push(0),
        1 => drop(t.marks.pop()),
        2 => cut(&mut t.action_starts, random),
        3 => cut(&mut t.branch_starts, random),
        4 => cut(&mut t.destinations, random),
        5 => cut(&mut t.weights, random),
        6 => cut(&mut t.costs, random),
        7 => cut(&mut t.ranks, random),
        8 => drop(t.claims.pop()),
        9 => t.kind = random(300) as u32,
        10 => t.d = random(1 << 32) as u32,
        11 => t.c = random(1 << 32) as u32,
        12 => t.ranks.iter_mut().for_each(|rank| *rank = states as u32),
        13 => t.claims.iter_mut().for_each(|claim| *claim = u64::MAX),
        _ => {}
    }
}

fn cut(table: &mut Vec<u32>, random: &mut impl FnMut(usize) -> usize) {
    match random(3) {
        0 => drop(table.pop()),
        1 => table.push(random(7) as u32),
        _ => table.clear(),
    }
}
