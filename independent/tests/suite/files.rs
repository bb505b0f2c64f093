//! Reading files, and what the check program makes of them.

use crate::models::{held, put, Tables, FILLING, FILLING_LONG, FILLING_WORD};
use independent::file::{set_length_field, write, Certificate};
use independent::program::{answer, Room};

const STATES_PLACE: usize = 14;
const BRANCHES_PLACE: usize = 22;

fn printed(file: &[u8]) -> String {
    answer(file, Room::CHECK).to_string()
}

fn assert_refused(file: &[u8], number: u32) {
    let mut tables = Tables::new(500, 1_000, 2_000);
    assert_eq!(tables.read(file), Err(number));
    assert_eq!(tables, Tables::new(500, 1_000, 2_000));
    assert_eq!(printed(file), format!("refused {number} 0\n"));
}

#[test]
fn each_kind_is_read_back() {
    for kind in 1..=8 {
        let claim = held(kind);
        let mut tables = Tables::new(3, 4, 6);
        let header = tables.read(&write(&claim)).unwrap();
        assert_eq!((header.states, header.actions, header.branches), (3, 4, 6));
        let mut expected = Certificate {
            kind: 0,
            d: 0,
            c: 0,
            ..claim.clone()
        };
        if expected.costs.is_empty() {
            expected.costs = vec![FILLING_WORD; 3];
        }
        if expected.ranks.is_empty() {
            expected.ranks = vec![FILLING_WORD; 3];
        }
        assert_eq!((header.kind, header.d, header.c), (kind, claim.d, claim.c));
        assert_eq!(tables.0, expected);
    }
}

#[test]
fn entries_beyond_the_counts_stay() {
    let mut tables = Tables::new(5, 7, 9);
    tables.read(&write(&held(8))).unwrap();
    assert_eq!(tables.0.marks[3..], [FILLING; 2]);
    assert_eq!(tables.0.action_starts[4..], [FILLING_WORD; 2]);
    assert_eq!(tables.0.branch_starts[5..], [FILLING_WORD; 3]);
    assert_eq!(tables.0.destinations[6..], [FILLING_WORD; 3]);
    assert_eq!(tables.0.weights[6..], [FILLING_WORD; 3]);
    assert_eq!(tables.0.costs[3..], [FILLING_WORD; 2]);
    assert_eq!(tables.0.claims[3..], [FILLING_LONG; 2]);
    assert_eq!(tables.0.ranks[3..], [FILLING_WORD; 2]);
}

#[test]
fn lengths_are_looked_at_first() {
    let file = write(&held(1));
    assert_refused(&[], 31);
    assert_refused(&file[..25], 31);
    assert_refused(&file[..136], 31);
    let mut whole_length = file.clone();
    put(&mut whole_length, 0, 137);
    assert_refused(&whole_length, 31);
    let mut also_bad_version = file.clone();
    also_bad_version[4] = 2;
    assert_refused(&also_bad_version, 32);
    also_bad_version.push(0);
    assert_refused(&also_bad_version, 31);
}

#[test]
fn version_goes_before_kind_and_kind_before_counts() {
    let mut file = write(&held(1));
    put(&mut file, STATES_PLACE, 501);
    assert_refused(&file, 33);
    file[5] = 9;
    assert_refused(&file, 1);
    file[4] = 0;
    assert_refused(&file, 32);
}

#[test]
fn counts_that_do_not_match_the_length() {
    let mut file = write(&held(1));
    file.push(0);
    set_length_field(&mut file);
    assert_refused(&file, 34);
    put(&mut file, BRANCHES_PLACE, 2_000);
    assert_refused(&file, 34);
    put(&mut file, BRANCHES_PLACE, 2_001);
    assert_refused(&file, 33);
    assert_refused(
        &[
            0, 0, 0, 22, 1, 1, 0, 0, 0, 4, 0, 0, 0, 8, 0, 0, 0, 0, 0, 0, 0, 0, 0, 0, 0, 0,
        ],
        34,
    );
}

#[test]
fn a_table_that_the_kind_lacks_may_be_short() {
    let mut tables = Tables::new(3, 4, 6);
    tables.0.costs.clear();
    tables.0.ranks.clear();
    assert!(tables.read(&write(&held(1))).is_ok());
    assert_eq!(tables.read(&write(&held(2))), Err(33));
    assert_eq!(tables.read(&write(&held(5))), Err(33));
}

#[test]
fn counts_over_a_limit_are_refused_though_the_tables_are_longer() {
    let mut tables = Tables::new(20_001, 100_001, 1_000_001);
    for (place, limit) in [(14, 20_000), (18, 100_000), (22, 1_000_000)] {
        let mut file = write(&held(1));
        put(&mut file, place, limit);
        assert_eq!(tables.read(&file), Err(34));
        put(&mut file, place, limit + 1);
        assert_eq!(tables.read(&file), Err(33));
    }
}

#[test]
fn no_states_pass_the_reader_and_no_actions_too() {
    let mut file = vec![0, 0, 0, 0, 1, 1];
    for word in [4, 8, 0, 0, 0] {
        file.extend(u32::to_be_bytes(word));
    }
    file.extend([0; 8]);
    set_length_field(&mut file);
    assert!(Tables::new(0, 0, 0).read(&file).is_ok());
    assert_eq!(printed(&file), "refused 4 0\n");
    let mut claim = held(1);
    claim.branch_starts.truncate(1);
    assert_eq!(printed(&write(&claim)), "refused 5 3\n");
}

#[test]
fn long_input_is_refused_before_all_else() {
    for room in [Room::CHECK, Room::WHOLE] {
        let printed = |length| answer(&vec![0; length], room).to_string();
        assert_eq!(printed(room.most_bytes()), "refused 31 0\n");
        assert_eq!(printed(room.most_bytes() + 1), "refused 33 0\n");
    }
}
