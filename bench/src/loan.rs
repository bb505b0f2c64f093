//! All that is lent for the answer of a file, beside the file.

use std::fmt::Debug;

use independent::file::{Certificate, Lent};
use independent::program::{text_bytes, RESULT_ENTRIES};

/// Its kind and scales play no role.
#[derive(Clone)]
pub struct Loan {
    pub tables: Certificate,
    pub choices: Vec<u32>,
    pub text: Vec<u8>,
    pub result: Vec<u64>,
}

/// One of the two implementations.
type Answerer = fn(&[u8], &mut Lent, &mut [u32], &mut [u8], &mut [u64]) -> u32;

impl Loan {
    /// Tables, with lists that are just long enough for them.
    pub fn with_lists(tables: Certificate) -> Loan {
        let states = tables.marks.len();
        Loan {
            tables,
            choices: vec![0; states],
            text: vec![0; text_bytes(states)],
            result: vec![0; RESULT_ENTRIES],
        }
    }

    pub fn lend(&mut self, file: &[u8], answer: Answerer) -> u32 {
        let Loan {
            tables,
            choices,
            text,
            result,
        } = self;
        answer(file, &mut tables.lent(), choices, text, result)
    }

    /// Stops at the first entry that differs.
    pub fn assert_same(&self, other: &Loan, case: &str) {
        let (ours, theirs) = (&self.tables, &other.tables);
        assert_entries(&ours.marks, &theirs.marks, case, "mark");
        assert_entries(
            &ours.action_starts,
            &theirs.action_starts,
            case,
            "action start",
        );
        assert_entries(
            &ours.branch_starts,
            &theirs.branch_starts,
            case,
            "branch start",
        );
        assert_entries(
            &ours.destinations,
            &theirs.destinations,
            case,
            "destination",
        );
        assert_entries(&ours.weights, &theirs.weights, case, "weight");
        assert_entries(&ours.costs, &theirs.costs, case, "cost");
        assert_entries(&ours.claims, &theirs.claims, case, "claim");
        assert_entries(&ours.ranks, &theirs.ranks, case, "rank");
        assert_entries(&self.choices, &other.choices, case, "choice");
        assert_entries(&self.text, &other.text, case, "byte of the text");
        assert_entries(&self.result, &other.result, case, "entry of the result");
    }
}

fn assert_entries<T: Debug + PartialEq>(ours: &[T], theirs: &[T], case: &str, entry: &str) {
    if ours == theirs {
        return;
    }
    assert_eq!(ours.len(), theirs.len(), "{case}");
    let place = ours
        .iter()
        .zip(theirs)
        .position(|(ours, theirs)| ours != theirs);
    let place = place.expect("some entry differs");
    panic!(
        "{case}: {entry} {place} is {:?} and {:?}",
        ours[place], theirs[place]
    );
}
