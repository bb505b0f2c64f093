//! The tables of a claim and their limits; refusals 1 to 14.

use crate::kind::Kind;
use crate::verdict::Refusal;

pub const MAX_WEIGHT_SCALE: u32 = 1_000_000;
pub const MAX_CLAIM_SCALE: u32 = 1_000_000_000;
pub const MAX_STATES: usize = 20_000;
pub const MAX_ACTIONS: usize = 100_000;
pub const MAX_BRANCHES: usize = 1_000_000;
pub const MAX_COST: u32 = 1_000_000_000;
pub const MAX_COST_CLAIM: u64 = 1_000_000_000_000;
/// The none mark of ranks and choices.
pub const NONE: u32 = u32::MAX;

/// Tables 1 to 5 with their scale.
pub(crate) struct Rows<'a> {
    pub d: u32,
    pub marks: &'a [u8],
    pub action_starts: &'a [u32],
    pub branch_starts: &'a [u32],
    pub destinations: &'a [u32],
    pub weights: &'a [u32],
}

/// Tables 6 to 8 with their scale.
pub(crate) struct Claim<'a> {
    pub c: u32,
    pub costs: &'a [u32],
    pub claims: &'a [u64],
    pub ranks: &'a [u32],
}

/// Refusals 1 to 14, or the kind if there is none. The choice list is left
/// aside where its length is not given.
pub(crate) fn refusals(
    kind: u32,
    rows: &Rows,
    claim: &Claim,
    choices: Option<usize>,
) -> Result<Kind, Refusal> {
    let kind = Kind::numbered(kind).ok_or_else(|| refused(1, 0))?;
    rows.scale()?;
    claim.scale(kind)?;
    rows.state_count()?;
    rows.lengths()?;
    claim.lengths(kind, rows.marks.len(), choices)?;
    rows.entries()?;
    claim.entries(kind)?;
    Ok(kind)
}

impl Rows<'_> {
    pub fn refusals(&self) -> Result<(), Refusal> {
        self.scale()?;
        self.state_count()?;
        self.lengths()?;
        self.entries()
    }

    fn scale(&self) -> Result<(), Refusal> {
        refuse_if(!(1..=MAX_WEIGHT_SCALE).contains(&self.d), 2, 0)
    }

    fn state_count(&self) -> Result<(), Refusal> {
        refuse_if(!(1..=MAX_STATES).contains(&self.marks.len()), 4, 0)
    }

    fn lengths(&self) -> Result<(), Refusal> {
        let branches = self.destinations.len();
        let start_lengths = 2..=MAX_ACTIONS + 1;
        refuse_if(self.action_starts.len() != self.marks.len() + 1, 5, 2)?;
        refuse_if(!start_lengths.contains(&self.branch_starts.len()), 5, 3)?;
        refuse_if(branches > MAX_BRANCHES, 5, 4)?;
        refuse_if(self.weights.len() != branches, 5, 5)
    }

    /// Refusals 6 to 11; the lengths are right.
    fn entries(&self) -> Result<(), Refusal> {
        let actions = self.branch_starts.len() - 1;
        refuse_at(faulty_start(self.action_starts, actions), 6)?;
        refuse_at(faulty_start(self.branch_starts, self.destinations.len()), 7)?;
        refuse_at(self.marks.iter().position(|&mark| mark > 1), 8)?;
        self.branches()
    }

    /// The one walk of refusals 9, 10 and 11; the starts are right. It stays
    /// out of line so that its loop has the registers to itself.
    #[inline(never)]
    fn branches(&self) -> Result<(), Refusal> {
        let states = self.marks.len() as u32;
        let d = self.d;
        let mut destinations = self.destinations;
        let mut weights = self.weights;
        for (action, bounds) in self.branch_starts.windows(2).enumerate() {
            let count = (bounds[1] - bounds[0]) as usize;
            let (own_destinations, later_destinations) = destinations.split_at(count);
            let (own_weights, later_weights) = weights.split_at(count);
            let mut sum = 0;
            for (&destination, &weight) in own_destinations.iter().zip(own_weights) {
                // A weight of 0 wraps to the greatest number.
                if destination >= states || weight.wrapping_sub(1) >= d {
                    return Err(self.fault_of_action(action));
                }
                sum += u64::from(weight);
            }
            if sum != u64::from(d) {
                return Err(refused(11, action));
            }
            destinations = later_destinations;
            weights = later_weights;
        }
        Ok(())
    }

    /// Names the faulty branch of an action that has one.
    #[cold]
    fn fault_of_action(&self, action: usize) -> Refusal {
        let mut branch = self.branch_starts[action] as usize;
        loop {
            if self.destinations[branch] as usize >= self.marks.len() {
                return refused(9, branch);
            }
            if !(1..=self.d).contains(&self.weights[branch]) {
                return refused(10, branch);
            }
            branch += 1;
        }
    }
}

impl Claim<'_> {
    fn scale(&self, kind: Kind) -> Result<(), Refusal> {
        let greatest = if kind.cost { 1 } else { MAX_CLAIM_SCALE };
        refuse_if(!(1..=greatest).contains(&self.c), 3, 0)
    }

    fn lengths(&self, kind: Kind, states: usize, choices: Option<usize>) -> Result<(), Refusal> {
        let length_if = |present| if present { states } else { 0 };
        refuse_if(self.costs.len() != length_if(kind.cost), 5, 6)?;
        refuse_if(self.claims.len() != states, 5, 7)?;
        refuse_if(self.ranks.len() != length_if(kind.at_least), 5, 8)?;
        let choices_faulty = choices.is_some_and(|length| length != length_if(kind.some));
        refuse_if(choices_faulty, 5, 9)
    }

    /// Refusals 12 to 14; the lengths are right.
    fn entries(&self, kind: Kind) -> Result<(), Refusal> {
        let states = self.claims.len() as u32;
        let greatest_claim = if kind.cost {
            MAX_COST_CLAIM
        } else {
            u64::from(self.c)
        };
        let faulty_rank = |&rank: &u32| rank >= states && rank != NONE;
        refuse_at(self.costs.iter().position(|&cost| cost > MAX_COST), 12)?;
        refuse_at(
            self.claims.iter().position(|&claim| claim > greatest_claim),
            13,
        )?;
        refuse_at(self.ranks.iter().position(faulty_rank), 14)
    }

    pub fn greatest_rank(&self) -> u32 {
        let ranks = self.ranks.iter().copied();
        ranks.filter(|&rank| rank != NONE).max().unwrap_or(0)
    }
}

/// The first entry that breaks the rules of a start table of two or more
/// entries: it begins at 0, rises strictly and ends at `end`.
fn faulty_start(starts: &[u32], end: usize) -> Option<usize> {
    let last = starts.len() - 1;
    if starts[0] != 0 {
        return Some(0);
    }
    let falling = starts.windows(2).position(|pair| pair[1] <= pair[0]);
    match falling {
        Some(before) => Some(before + 1),
        None => (starts[last] as usize != end).then_some(last),
    }
}

fn refused(number: u32, place: usize) -> Refusal {
    Refusal {
        number,
        place: place as u32,
    }
}

fn refuse_if(faulty: bool, number: u32, place: usize) -> Result<(), Refusal> {
    refuse_at(faulty.then_some(place), number)
}

fn refuse_at(place: Option<usize>, number: u32) -> Result<(), Refusal> {
    match place {
        Some(place) => Err(refused(number, place)),
        None => Ok(()),
    }
}
