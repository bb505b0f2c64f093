//! Writing files into a lent buffer.

use crate::models::{checked_with_choices, held, model_a, written, FILLING};
use independent::file::write;
use independent::program::{answer, Room};
use independent::rewrite::{rewrite, Rewritten};
use independent::tables::NONE;
use independent::verdict::{Refusal, Verdict};

#[test]
fn the_length_of_a_file_is_given() {
    let mut buffer = [FILLING; 137];
    assert_eq!(written(&held(1), &mut buffer), Ok(137));
    assert_eq!(buffer[..4], [0, 0, 0, 133]);
    assert_eq!(buffer[..], write(&held(1)));
}

#[test]
fn each_kind_is_written_and_the_rest_of_the_buffer_stays() {
    for (kind, length) in (1..=8).zip([137, 149, 137, 149, 149, 149, 161, 161]) {
        let mut buffer = [FILLING; 200];
        assert_eq!(written(&held(kind), &mut buffer), Ok(length));
        assert_eq!(buffer[..length], write(&held(kind)));
        assert!(buffer[length..].iter().all(|&byte| byte == FILLING));
        assert_eq!(rewrite(&buffer[..length]), Rewritten::Same { length });
    }
}

#[test]
fn a_buffer_one_byte_too_short_is_left_as_it_was() {
    for kind in 1..=8 {
        let mut buffer = vec![FILLING; write(&held(kind)).len() - 1];
        let refusal = Refusal {
            number: 35,
            place: 0,
        };
        assert_eq!(written(&held(kind), &mut buffer), Err(refusal));
        assert!(buffer.iter().all(|&byte| byte == FILLING));
        assert_eq!(written(&held(kind), &mut []), Err(refusal));
    }
}

#[test]
fn refused_tables_go_before_a_short_buffer() {
    let mut claim = held(4);
    claim.ranks[1] = 3;
    let refusal = Refusal {
        number: 14,
        place: 1,
    };
    assert_eq!(written(&claim, &mut [FILLING; 10]), Err(refusal));
}

#[test]
fn the_choice_list_plays_no_role() {
    for kind in [3, 4] {
        let no_list = checked_with_choices(&held(kind), 0).0;
        assert_eq!(
            no_list,
            Verdict::Refused {
                number: 5,
                place: 9
            }
        );
        let mut buffer = [FILLING; 200];
        assert!(written(&held(kind), &mut buffer).is_ok());
    }
}

#[test]
fn a_violated_claim_is_written() {
    let claim = model_a(4, [4, 8, 8], &[1, NONE, 0]);
    let file = write(&claim);
    assert_eq!(answer(&file, Room::CHECK).verdict.number(), 23);
    assert_eq!(rewrite(&file), Rewritten::Same { length: 149 });
}

#[test]
fn what_is_printed_of_a_file() {
    let mut claim = held(1);
    assert_eq!(rewrite(&write(&claim)).to_string(), "same 137");
    claim.weights[2] = 0;
    assert_eq!(rewrite(&write(&claim)).to_string(), "refused 10 2");
    let most = Room::CHECK.most_bytes();
    assert_eq!(rewrite(&vec![0; most]).to_string(), "refused 31 0");
    assert_eq!(rewrite(&vec![0; most + 1]).to_string(), "refused 33 0");
}
