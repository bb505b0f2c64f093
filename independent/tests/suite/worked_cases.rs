//! The worked cases of document 01, as request W-202 changes them.

use crate::models::{checked, held, model_a, model_b, UNTOUCHED};
use independent::file::{write, Certificate};
use independent::program::{answer, Room};
use independent::tables::NONE;

const UNRANKED: &[u32] = &[];
const SINK: &[u32] = &[1, NONE, 0];
const ALL_UNRANKED: &[u32] = &[NONE; 3];

fn printed(claim: &Certificate) -> String {
    answer(&write(claim), Room::CHECK).to_string()
}

fn assert_printed(rows: &[(Certificate, &str)]) {
    for (claim, expected) in rows {
        assert_eq!(printed(claim), *expected, "{claim:?}");
    }
}

#[test]
fn the_table_of_cases() {
    assert_printed(&[
        (model_a(1, [4, 0, 8], UNRANKED), "accepted 0\n"),
        (model_a(1, [3, 0, 8], UNRANKED), "violated 22 0 0\n"),
        (model_a(1, [4, 0, 7], UNRANKED), "violated 21 2 -\n"),
        (model_a(2, [1, 0, 8], SINK), "violated 22 0 1\n"),
        (
            model_a(3, [0, 0, 8], UNRANKED),
            "accepted 0\n0 1\n1 2\n2 -\n",
        ),
        (model_a(4, [4, 0, 8], SINK), "accepted 1\n0 0\n1 2\n2 -\n"),
        (model_a(4, [4, 8, 8], SINK), "violated 23 1 -\n"),
        (model_a(4, [4, 8, 8], &[2, 1, 0]), "violated 24 1 -\n"),
        (model_a(5, [9, 0, 5], UNRANKED), "accepted 0\n"),
        (model_a(5, [8, 0, 5], UNRANKED), "violated 22 0 0\n"),
        (model_a(5, [6, 0, 0], UNRANKED), "violated 21 2 -\n"),
        (model_a(5, [5, 0, 0], UNRANKED), "violated 22 0 0\n"),
        (model_a(6, [3, 0, 0], UNRANKED), "violated 21 2 -\n"),
        (
            model_a(6, [3, 0, 5], UNRANKED),
            "accepted 0\n0 1\n1 2\n2 -\n",
        ),
        (model_a(7, [3, 0, 0], SINK), "violated 24 0 1\n"),
        (model_a(8, [6, 0, 0], SINK), "accepted 1\n0 0\n1 2\n2 -\n"),
        (model_b(4, [4, 4, 0], &[1, 0, NONE]), "violated 24 0 -\n"),
    ]);
}

#[test]
fn claims_beside_the_cost_of_the_target() {
    assert_printed(&[
        (model_a(5, [9, 0, 6], UNRANKED), "accepted 0\n"),
        (model_a(5, [9, 0, 4], UNRANKED), "violated 21 2 -\n"),
        (model_a(8, [8, 0, 5], SINK), "accepted 1\n0 0\n1 2\n2 -\n"),
        (model_a(8, [8, 0, 4], SINK), "accepted 1\n0 0\n1 2\n2 -\n"),
        (model_a(8, [8, 0, 6], SINK), "violated 21 2 -\n"),
    ]);
}

#[test]
fn a_claimed_target_has_a_rank() {
    assert_printed(&[
        (model_a(7, [0, 0, 0], ALL_UNRANKED), "accepted 0\n"),
        (model_a(7, [0, 0, 5], ALL_UNRANKED), "violated 23 2 -\n"),
        (model_a(7, [0, 0, 6], ALL_UNRANKED), "violated 21 2 -\n"),
    ]);
}

#[test]
fn weights_that_do_not_add_up() {
    let mut claim = held(1);
    claim.weights[0] = 3;
    assert_eq!(printed(&claim), "refused 11 0\n");
}

#[test]
fn weights_out_of_range() {
    for weight in [0, 5] {
        let mut claim = held(1);
        claim.weights[2] = weight;
        assert_eq!(printed(&claim), "refused 10 2\n");
    }
}

#[test]
fn ranks_at_the_edge() {
    let mut claim = held(4);
    claim.ranks[0] = 2;
    assert_eq!(printed(&claim), "accepted 2\n0 0\n1 2\n2 -\n");
    claim.ranks[0] = 3;
    assert_eq!(printed(&claim), "refused 14 0\n");
}

#[test]
fn the_length_of_a_file() {
    let file = write(&held(1));
    assert_eq!(file.len(), 137);
    assert_eq!(file[..4], [0, 0, 0, 133]);
}

#[test]
fn choices_are_written_on_acceptance_only() {
    let (_, choices) = checked(&held(4));
    assert_eq!(choices, [0, 2, NONE]);
    let (_, choices) = checked(&model_a(4, [4, 8, 8], SINK));
    assert_eq!(choices, [UNTOUCHED; 3]);
    let mut refused = held(4);
    refused.weights[0] = 3;
    assert_eq!(checked(&refused).1, [UNTOUCHED; 3]);
}

#[test]
fn each_kind_can_hold() {
    for kind in 1..=8 {
        let first = printed(&held(kind));
        assert!(first.starts_with("accepted "), "kind {kind}: {first}");
    }
}

#[test]
fn an_unsuited_action_goes_before_one_that_does_not_fall() {
    // Both actions loop in state 0, which has the lowest rank; the second is
    // the one that does not suit.
    let mut claim = model_a(2, [8, 0, 8], SINK);
    claim.destinations[..4].copy_from_slice(&[0, 0, 0, 1]);
    assert_eq!(printed(&claim), "violated 22 0 1\n");
    claim.claims[0] = 0;
    assert_eq!(printed(&claim), "violated 24 0 0\n");
}
