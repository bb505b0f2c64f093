//! Both answers of generated files, some of them damaged further, over tables and lists that are shorter than they must be, as
//! long and longer: the same number and the same entries everywhere, or this stops.

use std::collections::BTreeMap;

use independent::file::{set_length_field, write, Certificate, HEADER_BYTES};
use independent::generate::rng::Rng;
use independent::generate::{self, limits};
use independent::program::{answer_into, text_bytes, Room, RESULT_ENTRIES};
use independent::tables::{MAX_ACTIONS, MAX_BRANCHES, MAX_STATES};

use crate::loan::Loan;
use crate::ours;

const MOST_BYTES: usize = Room::WHOLE.most_bytes();

/// How often each number came back, by whether a text was printed and what the number is about.
type Outcomes = BTreeMap<(bool, &'static str), BTreeMap<u32, u64>>;

/// Prints the outcomes. A case depends on the seed and its index alone.
pub fn compare(seed: u64, count: u64) {
    let mut outcomes = Outcomes::new();
    for index in 0..count {
        // Not the numbers that the generator has for this case.
        let rng = &mut Rng::new(!seed, index);
        let file = file(seed, index, rng);
        let counts = Counts::of(&file);
        let before = loan(&counts.to_lend_for(&file, rng), rng);
        let case = format!("case {index} of seed {seed}");
        let (number, printed) = both(&file, &before, &case);
        let about = about(&file, &counts, number, printed);
        let numbers = outcomes.entry((printed, about)).or_default();
        *numbers.entry(number).or_default() += 1;
    }
    report(&outcomes);
}

fn both(file: &[u8], before: &Loan, case: &str) -> (u32, bool) {
    let (mut first, mut second) = (before.clone(), before.clone());
    let number = first.lend(file, ours::answer);
    assert_eq!(number, second.lend(file, answer_into), "{case}");
    first.assert_same(&second, case);
    (number, first.result != before.result)
}

fn about(file: &[u8], counts: &Counts, number: u32, printed: bool) -> &'static str {
    match number {
        0 => "accepted",
        21..=24 => "violated",
        33 if file.len() > MOST_BYTES => "file too long",
        33 if counts.over_a_limit() => "count over a limit",
        33 => "table too short",
        1 | 31..=34 => "file",
        // Of the lengths that a file can give its tables only that of table 3 can be wrong.
        5 if !printed && counts.actions > 0 => "list of a wrong length",
        _ => "tables",
    }
}

fn report(outcomes: &Outcomes) {
    let mut sums = [0; 2];
    for (&(printed, about), numbers) in outcomes {
        let heading = if printed { "printed" } else { "not printed" };
        let sum: u64 = numbers.values().sum();
        println!("{heading:<12} {about:<22} {sum:>8}  {numbers:?}");
        sums[usize::from(printed)] += sum;
    }
    let [not_printed, printed] = sums;
    println!("the same everywhere: {printed} printed, {not_printed} not");
}

/// Mostly small ones, at times one at all limits, or as long as a file may be or a byte longer.
fn file(seed: u64, index: u64, rng: &mut Rng) -> Vec<u8> {
    let mut file = match rng.below(20_000) {
        0 => write(&limits::accepted(any_kind(rng), MAX_BRANCHES)),
        1..=20 => write(&limits::accepted(any_kind(rng), 50 * (1 + rng.index(400)))),
        21..=24 => longest(generate::case(seed, index), rng),
        _ => generate::case(seed, index),
    };
    if file.len() > HEADER_BYTES {
        damage(&mut file, rng);
    }
    file
}

fn any_kind(rng: &mut Rng) -> u32 {
    rng.word_between(1, 8)
}

fn longest(mut file: Vec<u8>, rng: &mut Rng) -> Vec<u8> {
    file.resize(MOST_BYTES + rng.index(2), 0);
    if rng.one_in(2) {
        set_length_field(&mut file);
    }
    file
}

/// A byte, a word or the length, or nothing.
fn damage(file: &mut Vec<u8>, rng: &mut Rng) {
    match rng.below(20) {
        0 => file[rng.index(HEADER_BYTES)] = rng.below(256) as u8,
        1 => {
            let place = rng.index(file.len());
            file[place] = rng.below(256) as u8;
        }
        2 => {
            let place = rng.index(file.len() - 3);
            let word = rng.word_between(0, u32::MAX);
            file[place..place + 4].copy_from_slice(&word.to_be_bytes());
        }
        3 => file.truncate(rng.index(file.len())),
        4 => {
            file.truncate(HEADER_BYTES + rng.index(file.len() - HEADER_BYTES));
            set_length_field(file);
        }
        5 => {
            file.resize(file.len() + 1 + rng.index(8), 1);
            set_length_field(file);
        }
        _ => {}
    }
}

/// The counts that a file gives, or zeros where it ends before them.
#[derive(Clone, Copy)]
struct Counts {
    states: usize,
    actions: usize,
    branches: usize,
}

impl Counts {
    fn of(file: &[u8]) -> Counts {
        let word = |place: usize| match file.get(place..place + 4) {
            Some(bytes) => u32::from_be_bytes(bytes.try_into().expect("four bytes")) as usize,
            None => 0,
        };
        Counts {
            states: word(14),
            actions: word(18),
            branches: word(22),
        }
    }

    fn over_a_limit(&self) -> bool {
        self.states > MAX_STATES || self.actions > MAX_ACTIONS || self.branches > MAX_BRANCHES
    }

    /// Those to make tables for, none more than one over its limit. What a file says but cannot hold gets its room at times only.
    fn to_lend_for(self, file: &[u8], rng: &mut Rng) -> Counts {
        let roomy = rng.one_in(8);
        let mut of = |count: usize, limit: usize| {
            if roomy || count <= file.len() {
                count.min(limit + 1)
            } else {
                rng.index(50)
            }
        };
        Counts {
            states: of(self.states, MAX_STATES),
            actions: of(self.actions, MAX_ACTIONS),
            branches: of(self.branches, MAX_BRANCHES),
        }
    }
}

/// Tables and lists around the lengths that the counts ask for, full of entries that are not zero.
fn loan(counts: &Counts, rng: &mut Rng) -> Loan {
    let tables = tables(counts, rng);
    let [choices, text, result] = list_lengths(counts.states, tables.marks.len(), rng);
    Loan {
        tables,
        choices: words(choices, rng),
        text: bytes(text, rng),
        result: longs(result, rng),
    }
}

fn tables(counts: &Counts, rng: &mut Rng) -> Certificate {
    let &Counts {
        states: n,
        actions: m,
        branches: b,
    } = counts;
    let needed = [n, n + 1, m + 1, b, b, n, n, n];
    let short: [bool; 8] = wrong(rng);
    let lengths = std::array::from_fn(|table| length(needed[table], short[table], rng));
    let [marks, action_starts, branch_starts, destinations, weights, costs, claims, ranks] =
        lengths;
    Certificate {
        kind: 0,
        d: 0,
        c: 0,
        marks: bytes(marks, rng),
        action_starts: words(action_starts, rng),
        branch_starts: words(branch_starts, rng),
        destinations: words(destinations, rng),
        weights: words(weights, rng),
        costs: words(costs, rng),
        claims: longs(claims, rng),
        ranks: words(ranks, rng),
    }
}

/// Of the choice list, the text and the result.
fn list_lengths(states: usize, marks: usize, rng: &mut Rng) -> [usize; 3] {
    let [choices_short, text_short, result_wrong] = wrong(rng);
    // At times what would do for the states of the file, but not for the marks.
    let for_states = rng.one_in(4);
    let choices = if choices_short && for_states {
        states
    } else {
        length(marks, choices_short, rng)
    };
    let text = if text_short && for_states {
        text_bytes(states)
    } else {
        length(text_bytes(marks), text_short, rng)
    };
    let result = if result_wrong {
        rng.pick(&[0, 1, 3, 4])
    } else {
        RESULT_ENTRIES
    };
    [choices, text, result]
}

/// Which are to have a wrong length: mostly none, else one, or any.
fn wrong<const N: usize>(rng: &mut Rng) -> [bool; N] {
    match rng.below(8) {
        0 | 1 => {
            let one = rng.index(N);
            std::array::from_fn(|index| index == one)
        }
        2 => std::array::from_fn(|_| rng.one_in(3)),
        _ => [false; N],
    }
}

fn length(needed: usize, short: bool, rng: &mut Rng) -> usize {
    if short {
        too_short(needed, rng)
    } else {
        enough(needed, rng)
    }
}

fn enough(needed: usize, rng: &mut Rng) -> usize {
    match rng.below(4) {
        0 | 1 => needed,
        2 => needed + 1,
        _ => needed + rng.index(40),
    }
}

/// There is nothing shorter than no entries.
fn too_short(needed: usize, rng: &mut Rng) -> usize {
    match rng.below(3) {
        0 => needed.saturating_sub(1),
        1 => rng.index(needed.max(1)),
        _ => 0,
    }
}

fn bytes(length: usize, rng: &mut Rng) -> Vec<u8> {
    filled(length, rng, |entry| (entry >> 56) as u8 | 1)
}

fn words(length: usize, rng: &mut Rng) -> Vec<u32> {
    filled(length, rng, |entry| (entry >> 32) as u32 | 1)
}

fn longs(length: usize, rng: &mut Rng) -> Vec<u64> {
    filled(length, rng, |entry| entry | 1)
}

/// A pattern that starts anywhere.
fn filled<T>(length: usize, rng: &mut Rng, entry: impl Fn(u64) -> T) -> Vec<T> {
    let start = rng.between(0, u64::MAX - 1);
    let places = (0..length as u64).map(|place| start.wrapping_add(place));
    places
        .map(|place| entry(place.wrapping_mul(0x9e37_79b9_7f4a_7c15)))
        .collect()
}
