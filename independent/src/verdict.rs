//! The answers: verdicts, and the refusals among them.

/// What the checker answers.
#[derive(Clone, Copy, Debug, PartialEq, Eq)]
pub enum Verdict {
    Accepted {
        greatest_rank: u32,
    },
    Refused {
        number: u32,
        place: u32,
    },
    Violated {
        number: u32,
        state: u32,
        action: Option<u32>,
    },
}

impl Verdict {
    /// The number of the answer; 0 for acceptance.
    pub fn number(self) -> u32 {
        match self {
            Verdict::Accepted { .. } => 0,
            Verdict::Refused { number, .. } | Verdict::Violated { number, .. } => number,
        }
    }
}

/// Why tables are refused.
#[derive(Clone, Copy, Debug, PartialEq, Eq)]
pub struct Refusal {
    pub number: u32,
    pub place: u32,
}

impl From<Refusal> for Verdict {
    fn from(Refusal { number, place }: Refusal) -> Verdict {
        Verdict::Refused { number, place }
    }
}
