//! The eight kinds of claim.

use std::ops::RangeInclusive;

/// What a kind of claim is about.
#[derive(Clone, Copy, Debug, PartialEq, Eq)]
pub struct Kind {
    /// About cost (else about arrival); has costs.
    pub cost: bool,
    /// "At least" (else "at most"); has ranks.
    pub at_least: bool,
    /// For some strategy (else for every one); writes choices.
    pub some: bool,
}

const fn kind(cost: bool, at_least: bool, some: bool) -> Kind {
    Kind {
        cost,
        at_least,
        some,
    }
}

const KINDS: [Kind; 8] = [
    kind(false, false, false),
    kind(false, true, false),
    kind(false, false, true),
    kind(false, true, true),
    kind(true, false, false),
    kind(true, false, true),
    kind(true, true, false),
    kind(true, true, true),
];

impl Kind {
    /// The kind with this number, if it is 1 to 8.
    pub fn numbered(number: u32) -> Option<Kind> {
        let index = usize::try_from(number).ok()?.checked_sub(1)?;
        KINDS.get(index).copied()
    }

    /// The claims that condition 21 allows at a target with this cost, of those
    /// that are in range.
    pub fn allowed_at_target(self, claim_scale: u32, cost: u32) -> RangeInclusive<u64> {
        let (whole, cost) = (u64::from(claim_scale), u64::from(cost));
        match (self.cost, self.at_least) {
            (false, false) => whole..=whole,
            (false, true) => 0..=whole,
            (true, false) => cost..=u64::MAX,
            (true, true) => 0..=cost,
        }
    }

    /// Whether the condition with this number (21 to 24) says anything.
    pub fn has_condition(self, number: u32) -> bool {
        match number {
            21 => self.cost || !self.at_least,
            22 => true,
            23 | 24 => self.at_least,
            _ => false,
        }
    }
}
