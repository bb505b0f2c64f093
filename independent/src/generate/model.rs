//! Well-formed models with claims that hold.

use std::ops::{Range, RangeInclusive};

use super::rng::Rng;
use crate::file::Certificate;
use crate::kind::Kind;
use crate::program::Room;
use crate::tables::{MAX_CLAIM_SCALE, MAX_COST, MAX_COST_CLAIM, MAX_WEIGHT_SCALE, NONE};

/// Rounds of iteration after which no fixed point is expected any more.
const MOST_ROUNDS: usize = 500;

/// How big a model is to be.
struct Size {
    states: usize,
    actions_per_state: Range<usize>,
    branches_per_action: Range<usize>,
}

/// A small model of this kind with a claim that holds.
pub fn holding(rng: &mut Rng, kind: u32) -> Certificate {
    let states = match rng.below(120) {
        0 => 1 + rng.low_index(40),
        1..=2 => 2 + rng.index(7),
        3..=16 => 1,
        _ => 2 + rng.low_index(5),
    };
    let d = weight_scale(rng);
    let size = Size {
        states,
        actions_per_state: 1..4,
        branches_per_action: 1..4,
    };
    claimed(rng, kind, d, &size)
}

/// A model that fills the check program's room, with a claim that holds.
pub fn filling(rng: &mut Rng) -> Certificate {
    let kind = 8;
    let room = Room::CHECK;
    let actions = room.actions / room.states;
    let branches = room.branches / room.actions;
    let size = Size {
        states: room.states,
        actions_per_state: actions..actions + 1,
        branches_per_action: branches..branches + 1,
    };
    claimed(rng, kind, 1_000, &size)
}

/// The kind of a certificate that this module made.
pub fn kind_of(made: &Certificate) -> Kind {
    Kind::numbered(made.kind).expect("made with a kind from 1 to 8")
}

/// The actions of a state.
pub fn actions_of(made: &Certificate, state: usize) -> Range<usize> {
    made.action_starts[state] as usize..made.action_starts[state + 1] as usize
}

/// The branches of an action.
pub fn branches_of(made: &Certificate, action: usize) -> Range<usize> {
    made.branch_starts[action] as usize..made.branch_starts[action + 1] as usize
}

/// The cost of a state, 0 for arrival kinds.
fn cost_of(made: &Certificate, state: usize) -> u32 {
    made.costs.get(state).copied().unwrap_or(0)
}

fn targets(made: &Certificate) -> Vec<usize> {
    let states = 0..made.marks.len();
    states.filter(|&state| made.marks[state] == 1).collect()
}

/// The claims that condition 21 allows at a target.
fn allowed_at_target(made: &Certificate, target: usize) -> RangeInclusive<u64> {
    kind_of(made).allowed_at_target(made.c, cost_of(made, target))
}

fn claimed(rng: &mut Rng, kind: u32, d: u32, size: &Size) -> Certificate {
    let mut made = with_rows(rng, kind, d, size);
    if kind_of(&made).at_least {
        claim_at_least(rng, &mut made);
    } else {
        claim_at_most(rng, &mut made);
    }
    made
}

fn weight_scale(rng: &mut Rng) -> u32 {
    match rng.below(4) {
        0 => rng.pick(&[1, 2, MAX_WEIGHT_SCALE - 1, MAX_WEIGHT_SCALE]),
        1 => rng.word_between(1, MAX_WEIGHT_SCALE),
        _ => rng.word_between(3, 12),
    }
}

fn claim_scale(rng: &mut Rng, kind: Kind) -> u32 {
    if kind.cost {
        return 1;
    }
    match rng.below(4) {
        0 => rng.pick(&[1, 2, MAX_CLAIM_SCALE]),
        1 => rng.word_between(1, MAX_CLAIM_SCALE),
        _ => rng.word_between(3, 1_000),
    }
}

/// A certificate with tables 1 to 6 and neither claims nor ranks.
fn with_rows(rng: &mut Rng, number: u32, d: u32, size: &Size) -> Certificate {
    let kind = Kind::numbered(number).expect("a kind from 1 to 8");
    let order = Order::new(rng, size.states);
    let mut made = Certificate {
        kind: number,
        d,
        c: claim_scale(rng, kind),
        marks: marks(rng, &order),
        action_starts: vec![0],
        branch_starts: vec![0],
        destinations: Vec::new(),
        weights: Vec::new(),
        costs: costs(rng, kind, size.states),
        claims: Vec::new(),
        ranks: Vec::new(),
    };
    let steady = !rng.one_in(4);
    for state in 0..size.states {
        add_state(rng, &mut made, size, order.before(state), steady);
    }
    made
}

/// The states in a random order, targets first.
struct Order {
    states: Vec<usize>,
    places: Vec<usize>,
}

impl Order {
    fn new(rng: &mut Rng, length: usize) -> Order {
        let states = rng.shuffled(length);
        let mut places = vec![0; length];
        for (place, &state) in states.iter().enumerate() {
            places[state] = place;
        }
        Order { states, places }
    }

    fn before(&self, state: usize) -> &[usize] {
        &self.states[..self.places[state]]
    }
}

fn marks(rng: &mut Rng, order: &Order) -> Vec<u8> {
    let states = order.states.len();
    let targets = if rng.one_in(8) {
        rng.index(states + 1)
    } else {
        1 + rng.low_index(states.div_ceil(2))
    };
    let mark = |&place: &usize| u8::from(place < targets);
    order.places.iter().map(mark).collect()
}

fn costs(rng: &mut Rng, kind: Kind, states: usize) -> Vec<u32> {
    if !kind.cost {
        return Vec::new();
    }
    let greatest = rng.pick(&[0, 3, 10, 1_000, MAX_COST]);
    (0..states).map(|_| cost(rng, greatest)).collect()
}

fn cost(rng: &mut Rng, greatest: u32) -> u32 {
    if rng.one_in(6) {
        greatest
    } else {
        rng.word_between(0, greatest)
    }
}

/// Adds a state's actions. In a steady model each has a branch to an earlier
/// state of the order; else only some have.
fn add_state(rng: &mut Rng, made: &mut Certificate, size: &Size, earlier: &[usize], steady: bool) {
    let Range { start, end } = size.actions_per_state;
    let actions = start + rng.low_index(end - start);
    let state = made.action_starts.len() - 1;
    for _ in 0..actions {
        if steady || rng.one_in(2) {
            add_action(rng, made, size, earlier);
        } else if rng.one_in(3) {
            add_action(rng, made, size, &[state]);
        } else {
            add_action(rng, made, size, &[]);
        }
    }
    let end = made.branch_starts.len() - 1;
    made.action_starts.push(end as u32);
}

/// Adds an action with one branch to one of these states, if there is any.
fn add_action(rng: &mut Rng, made: &mut Certificate, size: &Size, into: &[usize]) {
    let Range { start, end } = size.branches_per_action;
    let branches = (start + rng.low_index(end - start)).min(made.d as usize);
    let first = made.destinations.len();
    for weight in parts(rng, made.d, branches) {
        made.destinations.push(rng.index(size.states) as u32);
        made.weights.push(weight);
    }
    if !into.is_empty() {
        made.destinations[first + rng.index(branches)] = rng.pick(into) as u32;
    }
    made.branch_starts.push(made.destinations.len() as u32);
}

/// Splits a whole into this many parts above 0.
fn parts(rng: &mut Rng, whole: u32, count: usize) -> Vec<u32> {
    let mut left = whole - count as u32;
    let mut parts = vec![1; count];
    for part in &mut parts[1..] {
        let more = rng.word_between(0, left);
        *part += more;
        left -= more;
    }
    parts[0] += left;
    parts
}

/// Claims from below by rounding up to a fixed point; where none is reached,
/// claims from above.
fn claim_at_most(rng: &mut Rng, made: &mut Certificate) {
    let kind = kind_of(made);
    let above_least = if kind.cost {
        rng.pick(&[0, 0, 1, 20])
    } else {
        0
    };
    made.claims = vec![0; made.marks.len()];
    for target in targets(made) {
        made.claims[target] = allowed_at_target(made, target).start() + above_least;
    }
    let from_above = !kind.cost && rng.one_in(4);
    if from_above || !raise_to_fixed_point(made) {
        claim_from_above(rng, made);
    } else if kind.cost && rng.one_in(4) {
        lift_all(rng, made);
    }
}

fn raise_to_fixed_point(made: &mut Certificate) -> bool {
    for _ in 0..MOST_ROUNDS {
        let raised = rounded_up(made);
        if raised == made.claims {
            return true;
        }
        if raised.iter().any(|&claim| claim > MAX_COST_CLAIM) {
            return false;
        }
        made.claims = raised;
    }
    false
}

/// One claim for all states holds if condition 21 allows it at the targets and
/// no other state has a cost; so does each round that starts from it.
fn claim_from_above(rng: &mut Rng, made: &mut Certificate) {
    let claim = if kind_of(made).cost {
        drop_costs_of_open_states(made);
        let least = made.costs.iter().copied().max().map_or(0, u64::from);
        rng.pick(&[least, least + 5, MAX_COST_CLAIM])
    } else {
        u64::from(made.c)
    };
    made.claims = vec![claim; made.marks.len()];
    for _ in 0..rng.index(20) {
        made.claims = rounded_up(made);
    }
}

fn drop_costs_of_open_states(made: &mut Certificate) {
    for (cost, &mark) in made.costs.iter_mut().zip(&made.marks) {
        *cost *= u32::from(mark);
    }
}

/// Raises all cost claims alike, at most to the limit.
fn lift_all(rng: &mut Rng, made: &mut Certificate) {
    let greatest = made.claims.iter().copied().max().unwrap_or(0);
    let room = MAX_COST_CLAIM - greatest;
    let lift = if rng.one_in(2) {
        room
    } else {
        rng.between(0, room)
    };
    made.claims.iter_mut().for_each(|claim| *claim += lift);
}

/// The claims after one round of an "at most" kind.
fn rounded_up(made: &Certificate) -> Vec<u64> {
    let some = kind_of(made).some;
    let d = u64::from(made.d);
    let value = |state| {
        let sums = actions_of(made, state).map(|action| sum(made, state, action).div_ceil(d));
        if some {
            sums.min()
        } else {
            sums.max()
        }
    };
    let states = 0..made.marks.len();
    states
        .map(|state| match made.marks[state] {
            0 => value(state).expect("each state has an action"),
            _ => made.claims[state],
        })
        .collect()
}

/// Ranks by distance, then claims from 0 by rounding down.
fn claim_at_least(rng: &mut Rng, made: &mut Certificate) {
    let followed = rank_by_distance(rng, made);
    made.claims = vec![0; made.marks.len()];
    for target in targets(made) {
        made.claims[target] = claim_of_target(rng, made, target);
    }
    for _ in 0..rng.between(1, 60) {
        made.claims = rounded_down(made, &followed);
    }
    spread_ranks(rng, made);
}

/// Mostly the most that condition 21 allows at a target.
fn claim_of_target(rng: &mut Rng, made: &Certificate, target: usize) -> u64 {
    let most = *allowed_at_target(made, target).end();
    if kind_of(made).cost && rng.one_in(3) {
        rng.pick(&[0, most.saturating_sub(1)])
    } else if rng.one_in(8) {
        rng.between(0, most)
    } else {
        most
    }
}

/// Ranks each state from which the targets are neared, and returns the actions
/// to follow there: all ("every"), or one ("some"); none where unranked.
fn rank_by_distance(rng: &mut Rng, made: &mut Certificate) -> Vec<Range<usize>> {
    let states = made.marks.len();
    let rank_of_mark = |&mark: &u8| if mark == 1 { 0 } else { NONE };
    made.ranks = made.marks.iter().map(rank_of_mark).collect();
    let mut followed = vec![0..0; states];
    for rank in 1..states as u32 {
        let before = made.ranks.clone();
        for state in 0..states {
            if before[state] != NONE {
                continue;
            }
            if let Some(actions) = nearing(rng, made, &before, state) {
                made.ranks[state] = rank;
                followed[state] = actions;
            }
        }
    }
    followed
}

/// The actions to follow from a state towards ranked ones, if it can be ranked.
fn nearing(rng: &mut Rng, made: &Certificate, ranks: &[u32], state: usize) -> Option<Range<usize>> {
    let nears = |action: &usize| {
        let mut branches = branches_of(made, *action);
        branches.any(|branch| ranks[made.destinations[branch] as usize] != NONE)
    };
    let actions = actions_of(made, state);
    if !kind_of(made).some {
        return actions
            .clone()
            .all(|action| nears(&action))
            .then_some(actions);
    }
    let nearing: Vec<usize> = actions.filter(nears).collect();
    if nearing.is_empty() {
        return None;
    }
    let action = rng.pick(&nearing);
    Some(action..action + 1)
}

/// The claims after one round of an "at least" kind over the followed actions.
fn rounded_down(made: &Certificate, followed: &[Range<usize>]) -> Vec<u64> {
    let d = u64::from(made.d);
    let value = |state: usize| {
        let sums = followed[state]
            .clone()
            .map(|action| sum(made, state, action) / d);
        sums.min().unwrap_or(0).min(MAX_COST_CLAIM)
    };
    let states = 0..made.marks.len();
    states
        .map(|state| match made.marks[state] {
            0 => value(state),
            _ => made.claims[state],
        })
        .collect()
}

/// Opens a gap between two ranks now and then, which keeps their order.
fn spread_ranks(rng: &mut Rng, made: &mut Certificate) {
    let used = made.ranks.iter().copied().filter(|&rank| rank != NONE);
    let Some(greatest) = used.max() else { return };
    if rng.one_in(2) {
        return;
    }
    let gap = rng.word_between(0, made.marks.len() as u32 - 1 - greatest);
    let from = rng.word_between(0, greatest);
    for rank in made.ranks.iter_mut() {
        if *rank != NONE && *rank >= from {
            *rank += gap;
        }
    }
}

/// The E of document 01.
fn sum(made: &Certificate, state: usize, action: usize) -> u64 {
    let of_branches: u64 = branches_of(made, action)
        .map(|branch| {
            let claim = made.claims[made.destinations[branch] as usize];
            u64::from(made.weights[branch]) * claim
        })
        .sum();
    of_branches + u64::from(made.d) * u64::from(cost_of(made, state))
}

#[cfg(test)]
mod tests {
    use super::*;
    use crate::file::write;
    use crate::program::answer;

    #[test]
    fn all_that_should_hold_is_accepted() {
        for index in 0..4_000 {
            let kind = index % 8 + 1;
            let made = holding(&mut Rng::new(7, u64::from(index)), kind);
            let answer = answer(&write(&made), Room::CHECK);
            assert_eq!(answer.verdict.number(), 0, "{made:?}: {answer}");
        }
    }
}
