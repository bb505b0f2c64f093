//! Tables at all limits, and the room that they take.

use crate::models::{hash, held};
use independent::file::{write, Certificate};
use independent::generate::case;
use independent::generate::limits::accepted;
use independent::kind::Kind;
use independent::program::{answer, Answer, Desk, Room};
use independent::tables::{MAX_ACTIONS, MAX_BRANCHES, MAX_STATES, NONE};
use independent::verdict::Verdict;

const KINDS: std::ops::RangeInclusive<u32> = 1..=8;

fn at_limits(kind: u32) -> Certificate {
    accepted(kind, MAX_BRANCHES)
}

/// Each state but the target has the first of its five actions.
fn assert_choices(kind: Kind, choices: &[u32]) {
    if !kind.some {
        assert!(choices.is_empty());
        return;
    }
    assert_eq!(choices.len(), MAX_STATES);
    assert_eq!(choices[0], NONE);
    let open = (1..).zip(&choices[1..]);
    open.for_each(|(state, &choice)| assert_eq!(choice, 5 * state));
}

#[test]
fn the_most_that_a_room_can_need() {
    assert_eq!(Room::CHECK.most_bytes(), 30_534);
    assert_eq!(Room::WHOLE.most_bytes(), 8_820_034);
}

#[test]
fn each_kind_is_accepted_at_all_limits() {
    let mut desk = Desk::new(Room::WHOLE);
    for number in KINDS {
        let made = at_limits(number);
        assert_eq!(made.marks.len(), MAX_STATES);
        assert_eq!(made.branch_starts.len(), MAX_ACTIONS + 1);
        assert_eq!(made.destinations.len(), MAX_BRANCHES);
        let kind = Kind::numbered(number).unwrap();
        let greatest_rank = if kind.at_least {
            MAX_STATES as u32 - 1
        } else {
            0
        };
        let Answer {
            verdict, choices, ..
        } = desk.answer(&write(&made));
        assert_eq!(verdict, Verdict::Accepted { greatest_rank });
        assert_choices(kind, &choices);
    }
}

#[test]
fn the_longest_file_fills_the_room() {
    let lengths = KINDS.map(|kind| write(&at_limits(kind)).len());
    assert_eq!(lengths.max(), Some(Room::WHOLE.most_bytes()));
}

#[test]
fn the_same_tables_on_each_run() {
    let bytes = at_limits(1)
        .destinations
        .into_iter()
        .flat_map(u32::to_be_bytes);
    // As found when these tables came here from the benchmark.
    assert_eq!(hash(bytes), 0x11da_41c8_ea1a_7f2c);
}

#[test]
fn one_more_of_each_count_has_no_room() {
    let counts = [
        (14, [500, 20_000]),
        (18, [1_000, 100_000]),
        (22, [2_000, 1_000_000]),
    ];
    for (place, rooms) in counts {
        for (room, most) in [Room::CHECK, Room::WHOLE].into_iter().zip(rooms) {
            let printed = |count: u32| {
                let mut file = write(&held(8));
                file[place..place + 4].copy_from_slice(&count.to_be_bytes());
                answer(&file, room).to_string()
            };
            assert_eq!(printed(most), "refused 34 0\n");
            assert_eq!(printed(most + 1), "refused 33 0\n");
        }
    }
}

#[test]
fn what_the_check_program_has_no_room_for() {
    let file = write(&accepted(1, 2_050));
    assert_eq!(answer(&file, Room::CHECK).to_string(), "refused 33 0\n");
    assert_eq!(answer(&file, Room::WHOLE).to_string(), "accepted 0\n");
}

#[test]
fn more_room_changes_no_other_answer() {
    let mut grown = 0;
    for file in (0..1_000).map(|index| case(5, index)) {
        let [in_check, in_whole] = [Room::CHECK, Room::WHOLE].map(|room| answer(&file, room));
        if in_check.verdict.number() != 33 {
            assert_eq!(in_check, in_whole, "{file:?}");
        } else if in_check != in_whole {
            grown += 1;
        }
    }
    assert!(grown > 0);
}

#[test]
fn a_desk_forgets_what_it_was_lent_for() {
    let files = [
        write(&accepted(8, 5_000)),
        write(&held(2)),
        vec![],
        write(&held(7)),
        write(&accepted(4, 2_000)),
        write(&held(3)),
    ];
    let mut desk = Desk::new(Room::WHOLE);
    for file in files {
        assert_eq!(desk.answer(&file), answer(&file, Room::WHOLE));
    }
}
