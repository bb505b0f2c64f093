//! Refusals 1 to 14 with their places and their order, of the checker and of
//! the writer.

use crate::models::{checked, checked_with_choices, held, written, FILLING};
use independent::check::rows;
use independent::file::Certificate;
use independent::tables::{MAX_ACTIONS, MAX_BRANCHES, MAX_STATES};
use independent::verdict::{Refusal, Verdict};

fn refused(number: u32, place: u32) -> Verdict {
    Verdict::Refused { number, place }
}

fn rows_of(claim: &Certificate) -> Verdict {
    rows(
        claim.d,
        &claim.marks,
        &claim.action_starts,
        &claim.branch_starts,
        &claim.destinations,
        &claim.weights,
    )
}

fn assert_refused(kind: u32, change: impl Fn(&mut Certificate), number: u32, place: u32) {
    let mut claim = held(kind);
    change(&mut claim);
    assert_eq!(checked(&claim).0, refused(number, place), "{claim:?}");
    // The refusal goes before a buffer that is too short, and writes nothing.
    for length in [1_000, 0] {
        let mut buffer = vec![FILLING; length];
        let answered = written(&claim, &mut buffer);
        assert_eq!(answered, Err(Refusal { number, place }), "{claim:?}");
        assert!(buffer.iter().all(|&byte| byte == FILLING), "{claim:?}");
    }
    let in_rows = match number {
        5 => place <= 5,
        _ => matches!(number, 2 | 4 | 6..=11),
    };
    if in_rows {
        assert_eq!(rows_of(&claim), refused(number, place), "{claim:?}");
    }
}

#[test]
fn kind_and_scales() {
    for kind in [0, 9, u32::MAX] {
        assert_refused(1, |claim| claim.kind = kind, 1, 0);
    }
    for d in [0, 1_000_001] {
        assert_refused(1, |claim| claim.d = d, 2, 0);
    }
    for c in [0, 1_000_000_001] {
        assert_refused(1, |claim| claim.c = c, 3, 0);
    }
    for c in [0, 2] {
        assert_refused(5, |claim| claim.c = c, 3, 0);
    }
}

#[test]
fn state_count() {
    assert_refused(1, |claim| claim.marks.clear(), 4, 0);
    assert_refused(1, |claim| claim.marks = vec![0; MAX_STATES + 1], 4, 0);
}

#[test]
fn lengths() {
    assert_refused(8, |claim| claim.action_starts.push(5), 5, 2);
    assert_refused(8, |claim| claim.branch_starts.truncate(1), 5, 3);
    assert_refused(8, |claim| claim.branch_starts.clear(), 5, 3);
    assert_refused(
        8,
        |claim| claim.branch_starts = vec![0; MAX_ACTIONS + 2],
        5,
        3,
    );
    assert_refused(
        8,
        |claim| claim.destinations = vec![0; MAX_BRANCHES + 1],
        5,
        4,
    );
    assert_refused(8, |claim| claim.weights.push(1), 5, 5);
    assert_refused(8, |claim| claim.costs.clear(), 5, 6);
    assert_refused(1, |claim| claim.costs.push(0), 5, 6);
    assert_refused(8, |claim| claim.claims.push(0), 5, 7);
    assert_refused(8, |claim| claim.ranks.clear(), 5, 8);
    assert_refused(1, |claim| claim.ranks.push(0), 5, 8);
    assert_eq!(checked_with_choices(&held(8), 2).0, refused(5, 9));
    assert_eq!(checked_with_choices(&held(1), 3).0, refused(5, 9));
}

#[test]
fn starts() {
    assert_refused(1, |claim| claim.action_starts[0] = 1, 6, 0);
    assert_refused(1, |claim| claim.action_starts[1] = 0, 6, 1);
    assert_refused(1, |claim| claim.action_starts[1] = 3, 6, 2);
    assert_refused(1, |claim| claim.action_starts[3] = 5, 6, 3);
    assert_refused(1, |claim| claim.branch_starts[0] = 1, 7, 0);
    assert_refused(1, |claim| claim.branch_starts[2] = 3, 7, 2);
    assert_refused(1, |claim| claim.branch_starts[3] = 6, 7, 4);
    assert_refused(1, |claim| claim.branch_starts[4] = 7, 7, 4);
}

#[test]
fn marks_and_branches() {
    assert_refused(1, |claim| claim.marks[1] = 2, 8, 1);
    assert_refused(1, |claim| claim.destinations[4] = 3, 9, 4);
    assert_refused(1, |claim| claim.destinations[4] = u32::MAX, 9, 4);
    assert_refused(1, |claim| claim.weights[5] = 0, 10, 5);
    assert_refused(1, |claim| claim.weights[5] = 3, 11, 3);
}

#[test]
fn costs_claims_and_ranks() {
    assert_refused(5, |claim| claim.costs[2] = 1_000_000_001, 12, 2);
    assert_refused(1, |claim| claim.claims[1] = 9, 13, 1);
    assert_refused(5, |claim| claim.claims[1] = 1_000_000_000_001, 13, 1);
    assert_refused(2, |claim| claim.ranks[1] = 3, 14, 1);
    assert_refused(2, |claim| claim.ranks[1] = u32::MAX - 1, 14, 1);
}

#[test]
fn branches_are_one_walk() {
    let first_sum_wrong = |claim: &mut Certificate| {
        claim.weights[0] = 1;
        claim.destinations[3] = 9;
    };
    assert_refused(1, first_sum_wrong, 11, 0);
    let weight_before_destination = |claim: &mut Certificate| {
        claim.weights[0] = 0;
        claim.destinations[1] = 9;
    };
    assert_refused(1, weight_before_destination, 10, 0);
    let both_at_one_branch = |claim: &mut Certificate| {
        claim.weights[1] = 0;
        claim.destinations[1] = 9;
    };
    assert_refused(1, both_at_one_branch, 9, 1);
}

#[test]
fn the_lower_number_goes_first() {
    let cost_and_claim = |claim: &mut Certificate| {
        claim.claims[0] = u64::MAX;
        claim.costs[2] = u32::MAX;
    };
    assert_refused(5, cost_and_claim, 12, 2);
    let weight_and_mark = |claim: &mut Certificate| {
        claim.weights[0] = 0;
        claim.marks[2] = 2;
    };
    assert_refused(1, weight_and_mark, 8, 2);
    let scale_and_length = |claim: &mut Certificate| {
        claim.c = 0;
        claim.claims.clear();
        claim.marks.clear();
    };
    assert_refused(1, scale_and_length, 3, 0);
}

#[test]
fn the_rows_of_a_sound_model() {
    assert_eq!(rows_of(&held(1)), Verdict::Accepted { greatest_rank: 0 });
}
