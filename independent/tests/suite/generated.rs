//! The generated cases reach every answer often enough, and those that are not
//! refused are written anew byte by byte.

use std::collections::BTreeMap;

use crate::models::hash;
use independent::file::Certificate;
use independent::generate::case;
use independent::kind::Kind;
use independent::program::{answer, read, Answer, Room};
use independent::rewrite::{rewrite, Rewritten};
use independent::stream::{read_case, write_case};
use independent::verdict::{Refusal, Verdict};

const CASES: u64 = 2_000;
const REFUSALS: [u32; 18] = [
    1, 2, 3, 4, 5, 6, 7, 8, 9, 10, 11, 12, 13, 14, 31, 32, 33, 34,
];

fn assert_census(seed: u64) {
    let mut totals = BTreeMap::new();
    let mut by_kind = BTreeMap::new();
    for index in 0..CASES {
        let answer = answer(&case(seed, index), Room::CHECK);
        let number = answer.verdict.number();
        *totals.entry(number).or_insert(0) += 1;
        *by_kind.entry((number, answer.kind)).or_insert(0) += 1;
    }
    for number in REFUSALS {
        assert!(totals[&number] >= 20, "seed {seed}, {number}");
    }
    for kind in 1..=8 {
        let count = |number| by_kind.get(&(number, Some(kind))).copied().unwrap_or(0);
        assert!(count(0) >= 50, "seed {seed}, kind {kind}");
        for number in 21..=24 {
            let asked = Kind::numbered(kind).unwrap().has_condition(number);
            assert!(
                count(number) >= 20 || !asked,
                "seed {seed}, {number}, {kind}"
            );
            assert!(count(number) == 0 || asked, "seed {seed}, {number}, {kind}");
        }
    }
}

#[test]
fn every_answer_occurs_often_enough() {
    for seed in [0, 1, 2, u64::MAX] {
        assert_census(seed);
    }
}

/// How far the claim at a target is on the side of its cost that condition 21
/// allows, below 0 on the other side.
fn margin(made: &Certificate, target: usize) -> i64 {
    let above = made.claims[target] as i64 - i64::from(made.costs[target]);
    match made.kind {
        5 | 6 => above,
        _ => -above,
    }
}

/// The margins at targets with a cost, by kind and answer number: all those of
/// accepted claims, and those that break condition 21.
fn margins() -> BTreeMap<(u32, u32), Vec<i64>> {
    let mut margins = BTreeMap::<_, Vec<i64>>::new();
    for file in (0..4 * CASES).map(|index| case(4, index)) {
        let Answer { kind, verdict, .. } = answer(&file, Room::CHECK);
        let Some(kind @ 5..=8) = kind else { continue };
        let made = read(&file, Room::CHECK).unwrap();
        let states = match verdict {
            Verdict::Accepted { .. } => 0..made.marks.len(),
            Verdict::Violated {
                number: 21, state, ..
            } => state as usize..state as usize + 1,
            _ => continue,
        };
        let targets = states.filter(|&state| made.marks[state] == 1 && made.costs[state] > 0);
        let of_answer = margins.entry((kind, verdict.number())).or_default();
        of_answer.extend(targets.map(|target| margin(&made, target)));
    }
    margins
}

#[test]
fn claims_at_targets_lie_on_either_side_of_their_costs() {
    let margins = margins();
    for kind in 5..=8 {
        let count =
            |number, fits: fn(&&i64) -> bool| margins[&(kind, number)].iter().filter(fits).count();
        assert_eq!(count(0, |&&by| by < 0), 0, "kind {kind}");
        assert!(count(0, |&&by| by == 0) >= 50, "kind {kind}");
        assert!(count(0, |&&by| by == 1) >= 20, "kind {kind}");
        assert!(count(0, |&&by| by > 1) >= 20, "kind {kind}");
        assert_eq!(count(21, |&&by| by >= 0), 0, "kind {kind}");
        assert!(count(21, |&&by| by == -1) >= 20, "kind {kind}");
        assert!(count(21, |&&by| by < -1) >= 20, "kind {kind}");
    }
}

#[test]
fn what_is_not_refused_is_written_anew() {
    for file in (0..CASES).map(|index| case(3, index)) {
        let expected = match answer(&file, Room::CHECK).verdict {
            Verdict::Refused { number, place } => Rewritten::Refused(Refusal { number, place }),
            _ => Rewritten::Same { length: file.len() },
        };
        assert_eq!(rewrite(&file), expected, "{file:?}");
    }
}

#[test]
fn the_size_stays_small() {
    let bytes: usize = (0..CASES).map(|index| 4 + case(1, index).len()).sum();
    assert!(bytes < 500_000, "{bytes}");
}

#[test]
fn the_room_is_filled_and_overfilled() {
    let full = case(1, 999);
    assert_eq!(full.len(), Room::CHECK.most_bytes());
    assert!(matches!(
        answer(&full, Room::CHECK).verdict,
        Verdict::Accepted { greatest_rank } if greatest_rank > 0
    ));
    assert_eq!(case(1, 1_999).len(), Room::CHECK.most_bytes() + 1);
}

#[test]
fn the_same_seed_gives_the_same_cases() {
    // The first cases of seed 1, as found when W-202 had changed those of cost.
    let bytes = (0..500).flat_map(|index| case(1, index));
    assert_eq!(hash(bytes), 0x2eda_3820_0c62_473b);
}

#[test]
fn streams_are_read_back() {
    let cases = [vec![], vec![1, 2, 3], vec![0; 300]];
    let mut stream = Vec::new();
    for case in &cases {
        write_case(&mut stream, case).unwrap();
    }
    let mut input = stream.as_slice();
    for case in cases {
        assert_eq!(read_case(&mut input).unwrap(), Some(case));
    }
    assert_eq!(read_case(&mut input).unwrap(), None);
    assert!(read_case(&mut &stream[4..10]).is_err());
}
