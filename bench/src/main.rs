//! Measures the proved library against the independent program, see `run`, and compares the two writers and the two answers;
//! measures the front door against the independent program as whole processes.

mod answers;
mod front;
mod loan;
mod ours;
mod tables;
mod writers;

use std::collections::BTreeMap;
use std::hint::black_box;
use std::io::{self, BufRead};
use std::time::Instant;

use independent::check::check;
use independent::file;
use independent::kind::Kind;
use independent::program::answer_into;
use independent::verdict::{Refusal, Verdict};

use loan::Loan;

include!(concat!(env!("OUT_DIR"), "/padding.rs"));

extern "C" {
    fn padding();
}

const MOST_BRANCHES: usize = 1_000_000;
const RUNS: usize = 40;

fn main() {
    // The call keeps the padding before the code.
    unsafe { padding() };
    let arguments: Vec<String> = std::env::args().skip(1).collect();
    let words: Vec<&str> = arguments.iter().map(String::as_str).collect();
    match words[..] {
        ["measure"] => measure(),
        ["table"] => table(),
        ["front"] => front::measure(),
        ["writers", seed, count] => writers::compare(number(seed), number(count)),
        ["answers", seed, count] => answers::compare(number(seed), number(count)),
        _ => eprintln!(
            "usage: bench measure | bench table < MEASURED | bench front | \
             bench writers SEED COUNT | bench answers SEED COUNT"
        ),
    }
}

fn number(word: &str) -> u64 {
    word.parse().expect("a number")
}

/// One placement: a line for each measurement, with ns per branch of ours and of theirs.
fn measure() {
    for kind in 1..=8 {
        let accepted = tables::accepted(kind, MOST_BRANCHES);
        report(
            &format!("1 kind {kind}"),
            MOST_BRANCHES,
            checked(&accepted, 0),
        );
    }
    let rows_only = tables::rows_only(MOST_BRANCHES);
    report("2 rows alone", MOST_BRANCHES, checked(&rows_only, 13));
    report("3 file read", MOST_BRANCHES, read());
    report("3 file write", MOST_BRANCHES, write());
    report("3 file answer", MOST_BRANCHES, answer());
    for kind in 1..=2 {
        for branches in [10_000, 100_000, MOST_BRANCHES] {
            let label = format!("4 kind {kind}, {branches:7} branches");
            report(
                &label,
                branches,
                checked(&tables::accepted(kind, branches), 0),
            );
        }
    }
}

fn report(label: &str, branches: usize, [ours, theirs]: [f64; 2]) {
    let scale = 1e9 / branches as f64;
    println!("{label};{};{}", ours * scale, theirs * scale);
}

/// The best times of both, run in turns.
fn best(mut ours: impl FnMut(), mut theirs: impl FnMut()) -> [f64; 2] {
    let mut least = [f64::MAX; 2];
    for _ in 0..RUNS {
        least[0] = least[0].min(timed(&mut ours));
        least[1] = least[1].min(timed(&mut theirs));
    }
    least
}

fn timed(run: &mut impl FnMut()) -> f64 {
    let start = Instant::now();
    run();
    start.elapsed().as_secs_f64()
}

fn checked(t: &file::Certificate, number: u32) -> [f64; 2] {
    let some = Kind::numbered(t.kind).is_some_and(|kind| kind.some);
    let room = if some { t.marks.len() } else { 0 };
    let (mut choices, mut their_choices) = (vec![0; room], vec![0; room]);
    let times = best(
        || assert_eq!(ours::check(black_box(t), &mut choices)[0], number),
        || {
            assert_eq!(
                independent_check(black_box(t), &mut their_choices).number(),
                number
            )
        },
    );
    assert_eq!(choices, their_choices);
    times
}

#[rustfmt::skip]
fn independent_check(t: &file::Certificate, choices: &mut [u32]) -> Verdict {
    check(t.kind, t.d, t.c, &t.marks, &t.action_starts, &t.branch_starts, &t.destinations, &t.weights,
        &t.costs, &t.claims, &t.ranks, choices)
}

fn read() -> [f64; 2] {
    let written = tables::accepted(8, MOST_BRANCHES);
    let bytes = file::write(&written);
    let (mut first, mut second) = (written.clone(), written.clone());
    let times = best(
        || assert_eq!(ours::read(black_box(&bytes), &mut first.lent()), 0),
        || assert!(file::read(black_box(&bytes), &mut second.lent()).is_ok()),
    );
    assert!(first == written && second == written);
    times
}

fn write() -> [f64; 2] {
    let t = tables::accepted(1, MOST_BRANCHES);
    let file = file::write(&t);
    let (mut first, mut second) = (vec![0; file.len()], vec![0; file.len()]);
    let (mut ours, mut theirs) = ([0; 2], Ok(0));
    let times = best(
        || ours = ours::write(black_box(&t), &mut first),
        || theirs = independent_write(black_box(&t), &mut second),
    );
    assert_eq!(ours, [0, file.len() as u64]);
    assert_eq!(theirs, Ok(file.len()));
    assert!(first == file && second == file);
    times
}

#[rustfmt::skip]
fn independent_write(t: &file::Certificate, buffer: &mut [u8]) -> Result<usize, Refusal> {
    file::write_into(t.kind, t.d, t.c, &t.marks, &t.action_starts, &t.branch_starts, &t.destinations, &t.weights,
        &t.costs, &t.claims, &t.ranks, buffer)
}

fn answer() -> [f64; 2] {
    let accepted = tables::accepted(8, MOST_BRANCHES);
    let bytes = file::write(&accepted);
    let mut first = Loan::with_lists(accepted.clone());
    let mut second = first.clone();
    let times = best(
        || assert_eq!(first.lend(black_box(&bytes), ours::answer), 0),
        || assert_eq!(second.lend(black_box(&bytes), answer_into), 0),
    );
    first.assert_same(&second, "the answer at all limits");
    assert!(first.tables == accepted && first.text.starts_with(b"accepted 19999\n0 -\n1 5\n"));
    times
}

/// The means over all placements that were measured.
fn table() {
    let mut measured: BTreeMap<String, Vec<[f64; 3]>> = BTreeMap::new();
    for line in io::stdin().lock().lines().map_while(Result::ok) {
        let parts: Vec<&str> = line.split(';').collect();
        let [ours, theirs] = [1, 2].map(|i| parts[i].parse::<f64>().expect("a number"));
        let row = measured.entry(parts[0].to_string()).or_default();
        row.push([ours, theirs, ours / theirs]);
    }
    println!(
        "{:<26} {:>8} {:>12} {:>6}  least  most",
        "ns per branch", "ours", "independent", "ratio"
    );
    for (label, runs) in measured {
        let mean = |i: usize| runs.iter().map(|run| run[i]).sum::<f64>() / runs.len() as f64;
        let least = runs.iter().map(|run| run[2]).fold(f64::MAX, f64::min);
        let most = runs.iter().map(|run| run[2]).fold(0.0, f64::max);
        let (ours, theirs, ratio) = (mean(0), mean(1), mean(2));
        println!(
            "{:<26} {ours:8.3} {theirs:12.3} {ratio:6.2} {least:6.2} {most:5.2}",
            &label[2..]
        );
    }
}
