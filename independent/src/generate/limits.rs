//! Large tables with a claim that is accepted: every state has five actions
//! and every action ten branches, so that a million branches reach all limits.

use crate::file::Certificate;
use crate::kind::Kind;
use crate::tables::{MAX_CLAIM_SCALE, MAX_COST_CLAIM, MAX_WEIGHT_SCALE};

const ACTIONS_OF_STATE: usize = 5;
const BRANCHES_OF_ACTION: usize = 10;

/// An accepted claim of a kind, 1 to 8, over a model with this many branches,
/// a multiple of fifty. State 0 is the target, ranks are the states' numbers,
/// and the last branch of each action goes to a lower state.
pub fn accepted(number: u32, branches: usize) -> Certificate {
    let kind = Kind::numbered(number).expect("a kind from 1 to 8");
    let actions = branches / BRANCHES_OF_ACTION;
    let states = actions / ACTIONS_OF_STATE;
    let c = if kind.cost { 1 } else { MAX_CLAIM_SCALE };
    let claim = match (kind.cost, kind.at_least) {
        (true, true) => 0,
        (true, false) => MAX_COST_CLAIM,
        (false, _) => u64::from(c),
    };
    let per_state_if = |has: bool| if has { states } else { 0 };
    Certificate {
        kind: number,
        d: MAX_WEIGHT_SCALE,
        c,
        marks: (0..states).map(|state| u8::from(state == 0)).collect(),
        action_starts: starts(states, ACTIONS_OF_STATE),
        branch_starts: starts(actions, BRANCHES_OF_ACTION),
        destinations: destinations(states, branches),
        weights: vec![MAX_WEIGHT_SCALE / BRANCHES_OF_ACTION as u32; branches],
        costs: vec![0; per_state_if(kind.cost)],
        claims: vec![claim; states],
        ranks: (0..per_state_if(kind.at_least) as u32).collect(),
    }
}

fn starts(rows: usize, per_row: usize) -> Vec<u32> {
    (0..=rows).map(|row| (row * per_row) as u32).collect()
}

fn destinations(states: usize, branches: usize) -> Vec<u32> {
    let mut random = random();
    (0..branches)
        .map(|branch| {
            let state = branch / BRANCHES_OF_ACTION / ACTIONS_OF_STATE;
            let last = branch % BRANCHES_OF_ACTION == BRANCHES_OF_ACTION - 1;
            random(if last { state.max(1) } else { states }) as u32
        })
        .collect()
}

/// Numbers below a bound, the same on each run.
pub fn random() -> impl FnMut(usize) -> usize {
    let mut x = 88_172_645_463_325_252u64;
    move |end| {
        x ^= x << 13;
        x ^= x >> 7;
        x ^= x << 17;
        x as usize % end
    }
}
