//! The checker over tables: refusals 1 to 14, then the conditions.

use crate::conditions::Conditions;
use crate::tables::{refusals, Claim, Rows};
use crate::verdict::Verdict;

/// Judges a claim. Writes `choices` only when it accepts a "some" claim.
#[allow(clippy::too_many_arguments)]
pub fn check(
    kind: u32,
    d: u32,
    c: u32,
    marks: &[u8],
    action_starts: &[u32],
    branch_starts: &[u32],
    destinations: &[u32],
    weights: &[u32],
    costs: &[u32],
    claims: &[u64],
    ranks: &[u32],
    choices: &mut [u32],
) -> Verdict {
    let rows = Rows {
        d,
        marks,
        action_starts,
        branch_starts,
        destinations,
        weights,
    };
    let claim = Claim {
        c,
        costs,
        claims,
        ranks,
    };
    match judge(kind, &rows, &claim, choices) {
        Ok(greatest_rank) => Verdict::Accepted { greatest_rank },
        Err(verdict) => verdict,
    }
}

/// Refusals 2 and 4 to 11 over tables 1 to 5; accepted at 0 if there is none.
pub fn rows(
    d: u32,
    marks: &[u8],
    action_starts: &[u32],
    branch_starts: &[u32],
    destinations: &[u32],
    weights: &[u32],
) -> Verdict {
    let rows = Rows {
        d,
        marks,
        action_starts,
        branch_starts,
        destinations,
        weights,
    };
    match rows.refusals() {
        Ok(()) => Verdict::Accepted { greatest_rank: 0 },
        Err(refusal) => refusal.into(),
    }
}

fn judge(kind: u32, rows: &Rows, claim: &Claim, choices: &mut [u32]) -> Result<u32, Verdict> {
    let kind = refusals(kind, rows, claim, Some(choices.len()))?;
    Conditions::new(kind, rows, claim).judge(choices)?;
    Ok(claim.greatest_rank())
}
