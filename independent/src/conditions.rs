//! Conditions 21 to 24 over well-formed tables, and the choices.

use crate::kind::Kind;
use crate::tables::{Claim, Rows, MAX_STATES, NONE};
use crate::verdict::Verdict;

pub(crate) struct Conditions<'a> {
    kind: Kind,
    rows: &'a Rows<'a>,
    claim: &'a Claim<'a>,
}

/// The branches of one action.
#[derive(Clone, Copy)]
struct Branches<'a> {
    destinations: &'a [u32],
    weights: &'a [u32],
}

impl<'a> Conditions<'a> {
    pub fn new(kind: Kind, rows: &'a Rows<'a>, claim: &'a Claim<'a>) -> Self {
        Conditions { kind, rows, claim }
    }

    /// Names the first violation, or writes the choices of a "some" claim.
    pub fn judge(&self, choices: &mut [u32]) -> Result<(), Verdict> {
        match (self.kind.some, self.kind.at_least) {
            (false, false) => self.at_most_for_every(),
            (false, true) => self.at_least_for_every(),
            (true, _) => self.for_some(choices),
        }
    }

    /// Gathers the choices on the stack, so that a violation found late
    /// leaves the lent list as it was and no action is summed up twice.
    fn for_some(&self, choices: &mut [u32]) -> Result<(), Verdict> {
        let mut gathered = [NONE; MAX_STATES];
        let gathered = &mut gathered[..choices.len()];
        if self.kind.at_least {
            self.at_least_for_some(gathered)?;
        } else {
            self.at_most_for_some(gathered)?;
        }
        choices.copy_from_slice(gathered);
        Ok(())
    }

    fn at_most_for_every(&self) -> Result<(), Verdict> {
        for state in 0..self.rows.marks.len() {
            if self.is_target(state) {
                self.target(state)?;
                continue;
            }
            let (own, bound) = self.own_and_bound(state);
            for (action, branches) in self.actions(state) {
                if own + self.sum(branches) > bound {
                    return Err(violated(22, state, Some(action)));
                }
            }
        }
        Ok(())
    }

    fn at_most_for_some(&self, choices: &mut [u32]) -> Result<(), Verdict> {
        for (state, choice) in choices.iter_mut().enumerate() {
            if self.is_target(state) {
                self.target(state)?;
                continue;
            }
            let (own, bound) = self.own_and_bound(state);
            let mut actions = self.actions(state);
            match actions.find(|&(_, branches)| own + self.sum(branches) <= bound) {
                Some((action, _)) => *choice = action as u32,
                None => return Err(violated(22, state, None)),
            }
        }
        Ok(())
    }

    fn at_least_for_every(&self) -> Result<(), Verdict> {
        for state in 0..self.rows.marks.len() {
            if self.is_target(state) {
                self.target(state)?;
            } else if self.claim.ranks[state] == NONE {
                self.every_suits(state)?;
                self.rank_where_claimed(state)?;
            } else {
                self.every_suits_and_falls(state)?;
            }
        }
        Ok(())
    }

    fn every_suits(&self, state: usize) -> Result<(), Verdict> {
        let (own, bound) = self.own_and_bound(state);
        for (action, branches) in self.actions(state) {
            if own + self.sum(branches) < bound {
                return Err(violated(22, state, Some(action)));
            }
        }
        Ok(())
    }

    /// An action that does not suit goes before one that does not fall,
    /// even one with a lower number.
    fn every_suits_and_falls(&self, state: usize) -> Result<(), Verdict> {
        let (own, bound) = self.own_and_bound(state);
        let rank = self.claim.ranks[state];
        let mut not_falling = None;
        for (action, branches) in self.actions(state) {
            let (sum, falls) = self.sum_and_fall(branches, rank);
            if own + sum < bound {
                return Err(violated(22, state, Some(action)));
            }
            if !falls && not_falling.is_none() {
                not_falling = Some(action);
            }
        }
        match not_falling {
            Some(action) => Err(violated(24, state, Some(action))),
            None => Ok(()),
        }
    }

    fn at_least_for_some(&self, choices: &mut [u32]) -> Result<(), Verdict> {
        for (state, choice) in choices.iter_mut().enumerate() {
            if self.is_target(state) {
                self.target(state)?;
            } else if self.claim.ranks[state] == NONE {
                *choice = self.first_that_suits(state)?;
                self.rank_where_claimed(state)?;
            } else {
                *choice = self.first_that_suits_and_falls(state)?;
            }
        }
        Ok(())
    }

    fn first_that_suits(&self, state: usize) -> Result<u32, Verdict> {
        let (own, bound) = self.own_and_bound(state);
        let mut actions = self.actions(state);
        match actions.find(|&(_, branches)| own + self.sum(branches) >= bound) {
            Some((action, _)) => Ok(action as u32),
            None => Err(violated(22, state, None)),
        }
    }

    fn first_that_suits_and_falls(&self, state: usize) -> Result<u32, Verdict> {
        let (own, bound) = self.own_and_bound(state);
        let rank = self.claim.ranks[state];
        let mut broken = 22;
        for (action, branches) in self.actions(state) {
            let (sum, falls) = self.sum_and_fall(branches, rank);
            if own + sum >= bound {
                if falls {
                    return Ok(action as u32);
                }
                broken = 24;
            }
        }
        Err(violated(broken, state, None))
    }

    fn is_target(&self, state: usize) -> bool {
        self.rows.marks[state] != 0
    }

    /// Conditions 21 and 23 at a target.
    fn target(&self, state: usize) -> Result<(), Verdict> {
        let cost = self.cost(state);
        let allowed = self.kind.allowed_at_target(self.claim.c, cost);
        if !allowed.contains(&self.claim.claims[state]) {
            return Err(violated(21, state, None));
        }
        self.rank_where_claimed(state)
    }

    /// Condition 23; without ranks it asks nothing.
    fn rank_where_claimed(&self, state: usize) -> Result<(), Verdict> {
        let unranked = self.claim.ranks.get(state) == Some(&NONE);
        if unranked && self.claim.claims[state] > 0 {
            return Err(violated(23, state, None));
        }
        Ok(())
    }

    /// D times the state's cost, and D times its claim.
    fn own_and_bound(&self, state: usize) -> (u64, u64) {
        let d = u64::from(self.rows.d);
        let cost = u64::from(self.cost(state));
        (d * cost, d * self.claim.claims[state])
    }

    /// The state's cost, 0 for arrival kinds.
    fn cost(&self, state: usize) -> u32 {
        self.claim.costs.get(state).copied().unwrap_or(0)
    }

    /// The actions of a state with their numbers in the whole model.
    fn actions(&self, state: usize) -> impl Iterator<Item = (usize, Branches<'a>)> {
        let rows = self.rows;
        let first = rows.action_starts[state] as usize;
        let end = rows.action_starts[state + 1] as usize;
        let bounds = rows.branch_starts[first..=end].windows(2);
        bounds.enumerate().map(move |(offset, bounds)| {
            let (from, to) = (bounds[0] as usize, bounds[1] as usize);
            let branches = Branches {
                destinations: &rows.destinations[from..to],
                weights: &rows.weights[from..to],
            };
            (first + offset, branches)
        })
    }

    /// The weighted sum of the destinations' claims. Weights add up to at
    /// most 10^6 and claims are at most 10^12, so it fits.
    fn sum(&self, branches: Branches) -> u64 {
        let claims = self.claim.claims;
        let pairs = branches.destinations.iter().zip(branches.weights);
        pairs
            .map(|(&destination, &weight)| u64::from(weight) * claims[destination as usize])
            .sum()
    }

    /// That sum, and whether a destination has a rank below `rank`, which is
    /// not none. As the greatest number, none is never below it.
    fn sum_and_fall(&self, branches: Branches, rank: u32) -> (u64, bool) {
        let claims = self.claim.claims;
        let ranks = self.claim.ranks;
        let mut sum = 0;
        let mut falls = false;
        for (&destination, &weight) in branches.destinations.iter().zip(branches.weights) {
            let destination = destination as usize;
            sum += u64::from(weight) * claims[destination];
            falls |= ranks[destination] < rank;
        }
        (sum, falls)
    }
}

fn violated(number: u32, state: usize, action: Option<usize>) -> Verdict {
    Verdict::Violated {
        number,
        state: state as u32,
        action: action.map(|action| action as u32),
    }
}
