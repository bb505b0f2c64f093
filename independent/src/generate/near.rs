//! Near misses: small changes to a claim that holds, each aimed at one
//! condition. The tables stay well-formed.

use super::model::{actions_of, branches_of, kind_of};
use super::rng::Rng;
use crate::file::Certificate;
use crate::tables::{MAX_COST_CLAIM, NONE};

/// Changes a claim so that condition `number` may break.
pub fn miss(rng: &mut Rng, made: &mut Certificate, number: u32) {
    match number {
        21 => miss_at_target(rng, made),
        22 => miss_by_claim(rng, made),
        23 => miss_a_rank(rng, made),
        _ => miss_the_fall(rng, made),
    }
}

fn miss_at_target(rng: &mut Rng, made: &mut Certificate) {
    let Some(state) = pick_state(rng, made, |made, state| made.marks[state] == 1) else {
        return;
    };
    let greatest = greatest_claim(made);
    made.claims[state] = match made.costs.get(state) {
        Some(&cost) => beside(rng, u64::from(cost), greatest),
        None => {
            let off = one_or_more(rng, greatest);
            made.claims[state].abs_diff(off).min(greatest)
        }
    };
}

/// A claim below or above a cost: condition 21 allows one of the two sides.
fn beside(rng: &mut Rng, cost: u64, greatest: u64) -> u64 {
    if cost > 0 && rng.one_in(2) {
        cost - one_or_more(rng, cost)
    } else {
        cost + one_or_more(rng, greatest - cost)
    }
}

/// One unit, or any number of them up to the most.
fn one_or_more(rng: &mut Rng, most: u64) -> u64 {
    if rng.one_in(2) {
        1
    } else {
        rng.between(1, most)
    }
}

fn miss_by_claim(rng: &mut Rng, made: &mut Certificate) {
    if rng.one_in(6) {
        let state = rng.index(made.marks.len());
        made.marks[state] ^= 1;
    }
    if let Some(state) = pick_state(rng, made, is_open) {
        tighten_claim(rng, made, state);
    }
}

/// Moves a claim to the side that is harder to hold, mostly by one unit.
fn tighten_claim(rng: &mut Rng, made: &mut Certificate, state: usize) {
    let greatest = greatest_claim(made);
    let at_least = kind_of(made).at_least;
    let claim = &mut made.claims[state];
    let room = if at_least { greatest - *claim } else { *claim };
    if room == 0 {
        return;
    }
    let off = if rng.one_in(4) {
        rng.between(1, room)
    } else {
        1
    };
    *claim = if at_least { *claim + off } else { *claim - off };
}

/// Takes the rank of a claimed state away, or claims an unranked state.
fn miss_a_rank(rng: &mut Rng, made: &mut Certificate) {
    if rng.one_in(3) {
        let state = rng.index(made.marks.len());
        for action in actions_of(made, state) {
            loop_action(made, state, action);
        }
        made.claims[state] = rng.between(1, greatest_claim(made));
        unrank(made, state);
    } else if let Some(state) = pick_state(rng, made, |made, state| made.claims[state] > 0) {
        unrank(made, state);
    }
}

fn miss_the_fall(rng: &mut Rng, made: &mut Certificate) {
    let Some(state) = pick_state(rng, made, is_open_and_ranked) else {
        return;
    };
    let actions = actions_of(made, state);
    match rng.below(4) {
        0 => made.ranks[state] = rng.word_between(0, made.ranks[state]),
        1 => raise_a_rank(rng, made),
        2 => {
            let action = actions.start + rng.index(actions.len());
            loop_action(made, state, action);
        }
        _ => {
            // The loop suits any claim; what still falls may suit no more.
            let action = actions.start + rng.index(actions.len());
            loop_action(made, state, action);
            tighten_claim(rng, made, state);
        }
    }
}

/// Moves a rank up, or ranks an unranked state.
fn raise_a_rank(rng: &mut Rng, made: &mut Certificate) {
    let state = rng.index(made.ranks.len());
    let greatest = made.ranks.len() as u32 - 1;
    let least = if made.ranks[state] == NONE {
        0
    } else {
        made.ranks[state]
    };
    made.ranks[state] = rng.word_between(least, greatest);
}

fn loop_action(made: &mut Certificate, state: usize, action: usize) {
    let branches = branches_of(made, action);
    made.destinations[branches].fill(state as u32);
}

fn unrank(made: &mut Certificate, state: usize) {
    if kind_of(made).at_least {
        made.ranks[state] = NONE;
    }
}

fn greatest_claim(made: &Certificate) -> u64 {
    if kind_of(made).cost {
        MAX_COST_CLAIM
    } else {
        u64::from(made.c)
    }
}

fn is_open(made: &Certificate, state: usize) -> bool {
    made.marks[state] == 0
}

fn is_open_and_ranked(made: &Certificate, state: usize) -> bool {
    is_open(made, state) && made.ranks.get(state).is_some_and(|&rank| rank != NONE)
}

fn pick_state(
    rng: &mut Rng,
    made: &Certificate,
    wanted: fn(&Certificate, usize) -> bool,
) -> Option<usize> {
    let states = 0..made.marks.len();
    let fitting: Vec<usize> = states.filter(|&state| wanted(made, state)).collect();
    (!fitting.is_empty()).then(|| rng.pick(&fitting))
}
