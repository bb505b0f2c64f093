//! A file's whole answer over lent tables, with a lent choice list, text and
//! result.

use crate::models::{held, model_a, put, Tables, FILLING, FILLING_LONG, UNTOUCHED};
use independent::file::{write, Certificate};
use independent::generate::case;
use independent::kind::Kind;
use independent::program::{answer, answer_into, text_bytes, Room};
use independent::tables::NONE;

const KINDS: std::ops::RangeInclusive<u32> = 1..=8;
const MOST_BYTES: usize = 8_820_034;
const BRANCHES_PLACE: usize = 22;

/// All that is lent beside the file.
#[derive(Clone, Debug, PartialEq, Eq)]
struct Loan {
    tables: Tables,
    choices: Vec<u32>,
    text: Vec<u8>,
    result: Vec<u64>,
}

impl Loan {
    /// With lists just long enough for as many states as there are marks.
    fn new(states: usize, actions: usize, branches: usize) -> Loan {
        Loan {
            tables: Tables::new(states, actions, branches),
            choices: vec![UNTOUCHED; states],
            text: vec![FILLING; text_bytes(states)],
            result: vec![FILLING_LONG; 2],
        }
    }

    fn answer(&mut self, file: &[u8]) -> u32 {
        let lent = &mut self.tables.0.lent();
        answer_into(
            file,
            lent,
            &mut self.choices,
            &mut self.text,
            &mut self.result,
        )
    }

    /// What was printed, if the text beyond it is as it was.
    fn printed(&self) -> &str {
        let (printed, rest) = self.text.split_at(self.result[1] as usize);
        assert!(rest.iter().all(|&byte| byte == FILLING));
        std::str::from_utf8(printed).unwrap()
    }

    /// The same with its tables as a reader leaves them.
    fn after_reading(mut self, file: &[u8]) -> Loan {
        // Where it refuses the file it writes nothing.
        let _ = self.tables.read(file);
        self
    }
}

/// Loans for model A in which one list has the wrong length. There are more
/// marks than states, so most of the lists would do for the states alone.
fn with_a_wrong_list() -> Vec<Loan> {
    let loan = Loan::new(5, 7, 9);
    let mut few_choices = loan.clone();
    few_choices.choices.pop();
    let mut no_choices = loan.clone();
    no_choices.choices.clear();
    let mut short_text = loan.clone();
    short_text.text.pop();
    let mut no_text = loan.clone();
    no_text.text.clear();
    let mut short_result = loan.clone();
    short_result.result.pop();
    let mut long_result = loan.clone();
    long_result.result.push(FILLING_LONG);
    vec![
        few_choices,
        no_choices,
        short_text,
        no_text,
        short_result,
        long_result,
    ]
}

fn assert_refused(file: &[u8], number: u32, place: u32) {
    let mut loan = Loan::new(5, 7, 9);
    assert_eq!(loan.answer(file), number);
    assert_eq!(loan.result[0], u64::from(number));
    assert_eq!(loan.printed(), format!("refused {number} {place}\n"));
    assert_eq!(loan.choices, [UNTOUCHED; 5]);
    assert_eq!(loan.tables, Loan::new(5, 7, 9).after_reading(file).tables);
    // The refusal goes before a list of the wrong length.
    for before in with_a_wrong_list() {
        let mut loan = before.clone();
        assert_eq!(loan.answer(file), number);
        assert_eq!(loan, before.after_reading(file));
    }
}

fn damaged(kind: u32, change: impl Fn(&mut Certificate)) -> Vec<u8> {
    let mut claim = held(kind);
    change(&mut claim);
    write(&claim)
}

#[test]
fn the_room_for_a_text() {
    assert_eq!(text_bytes(0), 64);
    assert_eq!(text_bytes(20_000), 640_064);
    assert_eq!(text_bytes(usize::MAX), usize::MAX);
}

#[test]
fn each_kind_is_answered_in_tables_just_long_enough_and_longer() {
    for (kind, room) in KINDS.flat_map(|kind| [(kind, [3, 4, 6]), (kind, [5, 7, 9])]) {
        let [states, actions, branches] = room;
        let file = write(&held(kind));
        let before = Loan::new(states, actions, branches);
        let mut loan = before.clone();
        assert_eq!(loan.answer(&file), 0);
        assert_eq!(loan.result[0], 0);
        let answer = answer(&file, Room::CHECK);
        assert_eq!(loan.printed(), answer.to_string());
        let (chosen, rest) = loan.choices.split_at(answer.choices.len());
        assert_eq!(chosen, answer.choices);
        assert!(rest.iter().all(|&choice| choice == UNTOUCHED));
        assert_eq!(loan.tables, before.after_reading(&file).tables);
        let some = Kind::numbered(kind).unwrap().some;
        assert_eq!(chosen.len(), if some { 3 } else { 0 });
    }
}

#[test]
fn longer_lists_do_too_and_the_rest_of_them_stays() {
    let mut loan = Loan::new(3, 4, 6);
    loan.choices.extend([UNTOUCHED; 2]);
    loan.text.extend([FILLING; 2]);
    assert_eq!(loan.answer(&write(&held(4))), 0);
    assert_eq!(loan.printed(), "accepted 1\n0 0\n1 2\n2 -\n");
    assert_eq!(loan.result, [0, 23]);
    assert_eq!(loan.choices, [0, 2, NONE, UNTOUCHED, UNTOUCHED]);
}

#[test]
fn a_violated_claim_leaves_the_choices() {
    let mut loan = Loan::new(3, 4, 6);
    let file = write(&model_a(4, [4, 8, 8], &[2, 1, 0]));
    assert_eq!(loan.answer(&file), 24);
    assert_eq!(loan.printed(), "violated 24 1 -\n");
    assert_eq!(loan.result, [24, 16]);
    assert_eq!(loan.choices, [UNTOUCHED; 3]);
}

#[test]
fn a_list_of_the_wrong_length_gets_nothing_and_the_tables_are_filled() {
    let violated = write(&model_a(1, [3, 0, 8], &[]));
    let files = KINDS.map(|kind| write(&held(kind))).chain([violated]);
    for file in files {
        for before in with_a_wrong_list() {
            let mut loan = before.clone();
            assert_eq!(loan.answer(&file), 5);
            assert_eq!(loan, before.after_reading(&file));
        }
    }
}

#[test]
fn refused_files() {
    let file = write(&held(8));
    assert_refused(&[], 31, 0);
    assert_refused(&file[..160], 31, 0);
    let with_byte = |place: usize, byte| {
        let mut file = file.clone();
        file[place] = byte;
        file
    };
    assert_refused(&with_byte(4, 2), 32, 0);
    assert_refused(&with_byte(5, 9), 1, 0);
    for (branches, number) in [(9, 34), (10, 33), (1_000_001, 33)] {
        let mut file = file.clone();
        put(&mut file, BRANCHES_PLACE, branches);
        assert_refused(&file, number, 0);
    }
}

#[test]
fn long_input_is_refused_before_all_else() {
    let mut file = vec![0; MOST_BYTES];
    assert_refused(&file, 31, 0);
    file.push(0);
    assert_refused(&file, 33, 0);
}

#[test]
fn a_lent_table_may_not_be_too_short_if_the_kind_has_it() {
    let shorten: [fn(&mut Certificate); 8] = [
        |tables| tables.marks.truncate(2),
        |tables| tables.action_starts.truncate(3),
        |tables| tables.branch_starts.truncate(4),
        |tables| tables.destinations.truncate(5),
        |tables| tables.weights.truncate(5),
        |tables| tables.costs.truncate(2),
        |tables| tables.claims.truncate(2),
        |tables| tables.ranks.truncate(2),
    ];
    for shorten in shorten {
        let mut before = Loan::new(3, 4, 6);
        shorten(&mut before.tables.0);
        let mut loan = before.clone();
        assert_eq!(loan.answer(&write(&held(8))), 33);
        assert_eq!(loan.printed(), "refused 33 0\n");
        assert_eq!(loan.tables, before.tables);
        assert_eq!(loan.choices, before.choices);
    }
    let mut loan = Loan::new(3, 4, 6);
    loan.tables.0.costs.clear();
    loan.tables.0.ranks.clear();
    assert_eq!(loan.answer(&write(&held(3))), 0);
}

#[test]
fn refused_tables() {
    let no_states = |claim: &mut Certificate| {
        claim.marks.clear();
        claim.action_starts.truncate(1);
        claim.claims.clear();
    };
    assert_refused(&damaged(1, |claim| claim.d = 0), 2, 0);
    assert_refused(&damaged(8, |claim| claim.c = 2), 3, 0);
    assert_refused(&damaged(1, no_states), 4, 0);
    assert_refused(&damaged(1, |claim| claim.branch_starts.truncate(1)), 5, 3);
    assert_refused(&damaged(8, |claim| claim.action_starts[3] = 5), 6, 3);
    assert_refused(&damaged(8, |claim| claim.weights[5] = 3), 11, 3);
    assert_refused(&damaged(8, |claim| claim.ranks[1] = 3), 14, 1);
}

#[test]
fn generated_files_are_answered_as_by_the_check_program() {
    let Room {
        states,
        actions,
        branches,
    } = Room::CHECK;
    let before = Loan::new(states, actions, branches);
    let files = (0..2_000).map(|index| case(9, index));
    // What is longer the check program does not look into.
    for file in files.filter(|file| file.len() <= Room::CHECK.most_bytes()) {
        let mut loan = before.clone();
        let answer = answer(&file, Room::CHECK);
        assert_eq!(loan.answer(&file), answer.verdict.number(), "{file:?}");
        assert_eq!(loan.printed(), answer.to_string(), "{file:?}");
        assert!(loan.choices.starts_with(&answer.choices), "{file:?}");
        let rest = &loan.choices[answer.choices.len()..];
        assert!(rest.iter().all(|&choice| choice == UNTOUCHED), "{file:?}");
    }
}
